//! Implication in one unit: a pass down from gates to pins, then a pass up from pins to gates.
//! A stuck line says nothing of its gate, and a stuck pin nothing of the line behind it.

use crate::circuit::{Circuit, Fault, Function, Gate};
use crate::simulation::{evaluate, opposes, pin_shows, X};

/// A line would have to show both 0 and 1.
pub struct Conflict;

/// Both passes; the values begin as plain values with the tried value given to its line.
pub fn imply(circuit: &Circuit, fault: Fault, values: &mut [u8]) -> Result<(), Conflict> {
    down(circuit, fault, values)?;
    up(circuit, fault, values)
}

/// From the highest line: a gate line that is specified and not stuck implies pins.
fn down(circuit: &Circuit, fault: Fault, values: &mut [u8]) -> Result<(), Conflict> {
    for gate in circuit.gates.iter().rev() {
        let value = values[gate.line];
        if value != X && !fault.sticks(gate.line) {
            let before_inversion = value ^ gate.inverts as u8;
            imply_pins(gate, before_inversion, fault, values)?;
        }
    }
    Ok(())
}

fn imply_pins(gate: &Gate, value: u8, fault: Fault, values: &mut [u8]) -> Result<(), Conflict> {
    match gate.function {
        Function::Buffer => give_every_pin(gate, value, fault, values),
        Function::And if value == 1 => give_every_pin(gate, 1, fault, values),
        Function::Or if value == 0 => give_every_pin(gate, 0, fault, values),
        Function::And => give_only_unknown_pin(gate, 0, 1, fault, values),
        Function::Or => give_only_unknown_pin(gate, 1, 0, fault, values),
        Function::Xor => give_parity(gate, value, fault, values),
    }
}

/// Every pin has the value; the line behind a stuck pin is neither given a value nor compared.
fn give_every_pin(gate: &Gate, value: u8, fault: Fault, values: &mut [u8]) -> Result<(), Conflict> {
    for (position, &line) in gate.pins().iter().enumerate() {
        if !fault.sticks_pin(gate.line, position) {
            give(line, value, values)?;
        }
    }
    Ok(())
}

/// If exactly one pin is X and the rest have the value `rest`, that pin has the value given.
/// A stuck pin counts with its value.
fn give_only_unknown_pin(gate: &Gate, value: u8, rest: u8, fault: Fault, values: &mut [u8]) -> Result<(), Conflict> {
    let mut unknown = None;
    for (position, &line) in gate.pins().iter().enumerate() {
        let seen = pin_shows(gate, position, fault, values);
        if seen == X && unknown.is_none() {
            unknown = Some(line);
        } else if seen != rest {
            return Ok(());
        }
    }
    match unknown {
        Some(line) => give(line, value, values),
        None => Ok(()),
    }
}

/// If exactly one pin is X, it makes up the parity. A stuck pin counts with its value.
fn give_parity(gate: &Gate, value: u8, fault: Fault, values: &mut [u8]) -> Result<(), Conflict> {
    let mut unknown = None;
    let mut parity = value;
    for (position, &line) in gate.pins().iter().enumerate() {
        let seen = pin_shows(gate, position, fault, values);
        if seen != X {
            parity ^= seen;
        } else if unknown.is_none() {
            unknown = Some(line);
        } else {
            return Ok(());
        }
    }
    match unknown {
        Some(line) => give(line, parity, values),
        None => Ok(()),
    }
}

/// An implied line already opposite is a conflict.
fn give(line: u16, value: u8, values: &mut [u8]) -> Result<(), Conflict> {
    let old = &mut values[line as usize];
    if opposes(*old, value) {
        return Err(Conflict);
    }
    *old = value;
    Ok(())
}

/// From line 0: each gate not stuck is evaluated; a specified result fills an X or, if opposite, is a conflict.
fn up(circuit: &Circuit, fault: Fault, values: &mut [u8]) -> Result<(), Conflict> {
    for gate in &circuit.gates {
        if fault.sticks(gate.line) {
            continue;
        }
        let result = evaluate(gate, fault, values);
        if opposes(result, values[gate.line]) {
            return Err(Conflict);
        }
        if result != X {
            values[gate.line] = result;
        }
    }
    Ok(())
}
