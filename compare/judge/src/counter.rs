//! A circuit that people would draw: a counter, a shift register that is compared with it, and outputs on two wires.
//! The counter is reset; the shift register is not, and is known only once enough bits have been shifted in.

use crate::bytes::Builder;

const INPUT: u8 = 0;
const FLIP_FLOP: u8 = 1;
const BUFFER: u8 = 2;
const NOT: u8 = 3;
const AND: u8 = 4;
const OR: u8 = 6;
const XOR: u8 = 8;
const XNOR: u8 = 9;

/// The bits that share a copy of a line that selects.
const GROUP: usize = 2;

/// The inputs, in line order; those that load the counter follow them.
const INPUTS: usize = 6;

/// How many flip-flops the counter and the shift register have; two more hold what is found.
#[derive(Clone, Copy)]
pub struct Widths {
    pub counter: usize,
    pub shift: usize,
}

struct Inputs {
    reset: usize,
    load: usize,
    count: usize,
    shift: usize,
    serial: usize,
    show: usize,
    data: Vec<usize>,
}

/// The bytes of the circuit.
pub fn circuit(widths: Widths) -> Vec<u8> {
    let mut builder = Builder::default();
    let inputs = add_inputs(widths, &mut builder);
    let counter = add_flip_flops(widths.counter, &mut builder);
    let shift = add_flip_flops(widths.shift, &mut builder);
    let carry = add_counter(&inputs, &counter, &mut builder);
    add_shift_register(&inputs, &shift, &mut builder);
    let equal = add_comparator(&counter, &shift, &mut builder);
    let parity = add_parity(&[&counter[..], &shift[..]].concat(), &mut builder);
    let [last, overflow] = add_memory(inputs.reset, carry, equal, &mut builder);
    let hide = builder.add(NOT, 0, &[inputs.show]);
    builder.add(BUFFER, 1, &[overflow]);
    let shown = [equal, parity, last, shift[shift.len() - 1]];
    shown.iter().for_each(|&line| add_two_wires(hide, line, &mut builder));
    builder.bytes()
}

fn add_inputs(widths: Widths, builder: &mut Builder) -> Inputs {
    let mut add = || builder.add(INPUT, 0, &[]);
    let [reset, load, count, shift, serial, show] = [(); INPUTS].map(|()| add());
    Inputs { reset, load, count, shift, serial, show, data: (0..widths.counter).map(|_| add()).collect() }
}

/// Their pins are named later.
fn add_flip_flops(count: usize, builder: &mut Builder) -> Vec<usize> {
    (0..count).map(|_| builder.add(FLIP_FLOP, 0, &[])).collect()
}

/// A line as each group of bits has it: a copy of its own and the opposite.
struct Select {
    copy: usize,
    opposite: usize,
}

fn add_selects(line: usize, bits: usize, builder: &mut Builder) -> Vec<Select> {
    let mut add = |_| {
        let copy = builder.add(BUFFER, 0, &[line]);
        Select { copy, opposite: builder.add(NOT, 0, &[copy]) }
    };
    (0..bits.div_ceil(GROUP)).map(&mut add).collect()
}

/// The first of two lines where the select is 1, else the second.
fn add_choice(select: &Select, lines: [usize; 2], builder: &mut Builder) -> usize {
    let first = builder.add(AND, 0, &[select.copy, lines[0]]);
    let second = builder.add(AND, 0, &[select.opposite, lines[1]]);
    builder.add(OR, 0, &[first, second])
}

/// Each bit is 0 after a reset, the data after a load, else one more if it counts; the carry out of the last.
fn add_counter(inputs: &Inputs, counter: &[usize], builder: &mut Builder) -> usize {
    let resets = add_selects(inputs.reset, counter.len(), builder);
    let loads = add_selects(inputs.load, counter.len(), builder);
    let mut carry = inputs.count;
    for (i, (&bit, &data)) in counter.iter().zip(&inputs.data).enumerate() {
        let counted = builder.add(XOR, 0, &[bit, carry]);
        let chosen = add_choice(&loads[i / GROUP], [data, counted], builder);
        let next = builder.add(AND, 0, &[resets[i / GROUP].opposite, chosen]);
        builder.set_pin(bit, next);
        carry = builder.add(AND, 0, &[carry, bit]);
    }
    carry
}

/// Each bit takes the one before it, the first the serial input, or holds what it has.
fn add_shift_register(inputs: &Inputs, shift: &[usize], builder: &mut Builder) {
    let shifts = add_selects(inputs.shift, shift.len(), builder);
    let mut before = inputs.serial;
    for (i, &bit) in shift.iter().enumerate() {
        let next = add_choice(&shifts[i / GROUP], [before, bit], builder);
        builder.set_pin(bit, next);
        before = bit;
    }
}

/// Whether counter and shift register agree, as far as both have bits.
fn add_comparator(counter: &[usize], shift: &[usize], builder: &mut Builder) -> usize {
    let pairs = counter.iter().zip(shift);
    let equals: Vec<usize> = pairs.map(|(&bit, &other)| builder.add(XNOR, 0, &[bit, other])).collect();
    add_tree(AND, &equals, builder)
}

fn add_parity(lines: &[usize], builder: &mut Builder) -> usize {
    add_tree(XOR, lines, builder)
}

/// Whether they agreed a unit ago, and whether the counter has overflowed an odd number of times since the reset.
fn add_memory(reset: usize, carry: usize, equal: usize, builder: &mut Builder) -> [usize; 2] {
    let run = builder.add(NOT, 0, &[reset]);
    let last = builder.add(FLIP_FLOP, 0, &[equal]);
    let overflow = builder.add(FLIP_FLOP, 0, &[]);
    let turned = builder.add(XOR, 0, &[overflow, carry]);
    let next = builder.add(AND, 0, &[run, turned]);
    builder.set_pin(overflow, next);
    [last, overflow]
}

/// The line and its opposite as two outputs, both 1 while they are hidden.
fn add_two_wires(hide: usize, line: usize, builder: &mut Builder) {
    let opposite = builder.add(NOT, 0, &[line]);
    builder.add(OR, 1, &[hide, line]);
    builder.add(OR, 1, &[hide, opposite]);
}

/// A gate over any number of lines, built of gates of two to four pins.
fn add_tree(kind: u8, lines: &[usize], builder: &mut Builder) -> usize {
    let mut level = lines.to_vec();
    while level.len() > 1 {
        let parts: Vec<&[usize]> = level.chunks(3).collect();
        let gate = |part: &&[usize]| if part.len() > 1 { builder.add(kind, 0, part) } else { part[0] };
        level = parts.iter().map(gate).collect();
    }
    level[0]
}
