//! Plain simulation of one time unit with values 0, 1 and X; a fault fixes what is seen.

use crate::circuit::{Circuit, Fault, Gate};

/// Unknown; 0 and 1 stand for themselves.
pub const X: u8 = 2;

/// Two specified values that differ; nothing is opposite to X. Of 0, 1 and 2 only 0 and 1 differ in bit 0 alone.
pub fn opposes(one: u8, other: u8) -> bool {
    one ^ other == 1
}

pub fn invert(value: u8) -> u8 {
    if value == X {
        X
    } else {
        1 - value
    }
}

/// Two values combined by each function; no value reaches the fourth row and column.
type Table = [[u8; 4]; 4];
const AND: Table = [[0, 0, 0, X], [0, 1, X, X], [0, X, X, X], [X; 4]];
const OR: Table = [[0, 1, X, X], [1, 1, 1, X], [X, 1, X, X], [X; 4]];
const XOR: Table = [[0, 1, X, X], [1, 0, X, X], [X; 4], [X; 4]];
/// In the order of the functions; a buffer has no second pin to combine.
const TABLES: [Table; 4] = [AND, AND, OR, XOR];

/// What a gate shows when its pin at each position, from 0, shows what `seen` says.
#[inline(always)]
fn value_of(gate: &Gate, seen: impl Fn(usize) -> u8) -> u8 {
    let table = &TABLES[gate.function as usize];
    let mut value = seen(0);
    for position in 1..gate.pins().len() {
        value = table[(value & 3) as usize][(seen(position) & 3) as usize];
    }
    if gate.inverts {
        invert(value)
    } else {
        value
    }
}

/// What a gate whose line is not stuck shows.
#[inline(always)]
pub fn evaluate(gate: &Gate, fault: Fault, values: &[u8]) -> u8 {
    let pins = gate.pins();
    if gate.line != fault.line {
        return value_of(gate, |position| values[pins[position] as usize]);
    }
    value_of(gate, |position| pin_shows(gate, position, fault, values))
}

/// What the pin at this position shows: a stuck pin its value, another its line's.
pub fn pin_shows(gate: &Gate, position: usize, fault: Fault, values: &[u8]) -> u8 {
    if fault.sticks_pin(gate.line, position) {
        fault.value
    } else {
        values[gate.pins()[position] as usize]
    }
}

/// Inputs take the test, flip-flop lines the state, gates follow in line order.
pub fn simulate_unit(circuit: &Circuit, fault: Fault, test: &[u8], state: &[u8], values: &mut [u8]) {
    for (&line, &value) in circuit.inputs.iter().zip(test) {
        values[line] = value;
    }
    for (flip_flop, &bit) in circuit.flip_flops.iter().zip(state) {
        values[flip_flop.line] = bit;
    }
    if fault.sticks(fault.line) && fault.line < values.len() {
        values[fault.line] = fault.value;
    }
    for gate in &circuit.gates {
        if !fault.sticks(gate.line) {
            values[gate.line] = evaluate(gate, fault, values);
        }
    }
}

/// The next state: what the flip-flop pins see.
pub fn next_state(circuit: &Circuit, fault: Fault, values: &[u8], state: &mut [u8]) {
    for (flip_flop, bit) in circuit.flip_flops.iter().zip(state) {
        *bit = if fault.sticks_pin(flip_flop.line, 0) { fault.value } else { values[flip_flop.pin_line] };
    }
}

/// The plain response, every flip-flop starting at X: by time, then output line.
pub fn response(circuit: &Circuit, fault: Fault, test: &[u8]) -> Vec<u8> {
    let mut values = vec![X; circuit.line_count];
    let mut state = vec![X; circuit.flip_flops.len()];
    let mut response = Vec::new();
    for unit in test.chunks_exact(circuit.inputs.len()) {
        simulate_unit(circuit, fault, unit, &state, &mut values);
        response.extend(circuit.outputs.iter().map(|&line| values[line]));
        next_state(circuit, fault, &values, &mut state);
    }
    response
}
