//! The circuit, decoded: its gates in line order and the lists of its inputs, flip-flops and outputs.

/// What a gate makes of its pins before it inverts or not.
#[derive(Clone, Copy, PartialEq, Debug)]
pub enum Function {
    Buffer,
    And,
    Or,
    Xor,
}

/// A line of kind 2 to 9.
#[derive(Clone, Debug)]
pub struct Gate {
    pub line: usize,
    pub function: Function,
    pub inverts: bool,
    pin_lines: [u16; 4],
    pin_count: usize,
}

impl Gate {
    /// The lines named by pin 1 and on.
    pub fn pins(&self) -> &[u16] {
        &self.pin_lines[..self.pin_count]
    }
}

/// A line of kind 1; its state bit stands apart from it.
#[derive(Clone, Debug)]
pub struct FlipFlop {
    pub line: usize,
    pub pin_line: usize,
}

#[derive(Default, Debug)]
pub struct Circuit {
    pub line_count: usize,
    pub inputs: Vec<usize>,
    pub flip_flops: Vec<FlipFlop>,
    pub gates: Vec<Gate>,
    pub outputs: Vec<usize>,
    /// The pin count of each line.
    pub pin_counts: Vec<u8>,
}

impl Circuit {
    /// Adds the next line; its record has passed rows 2 to 5.
    pub fn add(&mut self, kind: u8, is_output: bool, pin_lines: [u16; 4], pin_count: u8) {
        let line = self.line_count;
        match kind {
            0 => self.inputs.push(line),
            1 => self.flip_flops.push(FlipFlop { line, pin_line: pin_lines[0] as usize }),
            _ => self.gates.push(Gate {
                line,
                function: function_of(kind),
                inverts: kind % 2 == 1,
                pin_lines,
                pin_count: pin_count as usize,
            }),
        }
        if is_output {
            self.outputs.push(line);
        }
        self.pin_counts.push(pin_count);
        self.line_count += 1;
    }
}

/// Kinds: 2 buffer, 3 NOT, 4 AND, 5 NAND, 6 OR, 7 NOR, 8 XOR, 9 XNOR; the odd ones invert.
fn function_of(kind: u8) -> Function {
    match kind {
        2 | 3 => Function::Buffer,
        4 | 5 => Function::And,
        6 | 7 => Function::Or,
        _ => Function::Xor,
    }
}

/// One stuck line or pin.
#[derive(Clone, Copy, PartialEq, Debug)]
pub struct Fault {
    pub line: usize,
    /// 0 for the line itself, else the pin.
    pub pin: usize,
    pub value: u8,
}

impl Fault {
    /// Sticks nothing: no circuit has this line.
    pub const NONE: Fault = Fault { line: usize::MAX, pin: 0, value: 0 };

    /// The line itself is stuck.
    pub fn sticks(&self, line: usize) -> bool {
        self.pin == 0 && self.line == line
    }

    /// The pin at this position, from 0, of this line is stuck.
    pub fn sticks_pin(&self, line: usize, position: usize) -> bool {
        self.pin == position + 1 && self.line == line
    }
}
