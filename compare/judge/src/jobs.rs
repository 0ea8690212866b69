//! Random jobs, the same again for the same seed: circuits of a chosen shape, tests, faults and plans.

use crate::bytes::{fault_bytes, line_record, plan_bytes, LentJob};
use crate::random::Random;

/// What sort of circuit to make; chances are in percent.
#[derive(Clone, Copy)]
pub struct Shape {
    pub inputs: usize,
    pub flip_flops: usize,
    pub gates: usize,
    pub outputs: usize,
    /// That a pin of a gate names an input.
    pub input_pins: usize,
    /// That a pin of a gate names a flip-flop.
    pub flip_flop_pins: usize,
    /// That a gate is XOR or XNOR.
    pub parity_gates: usize,
    /// That a flip-flop names itself.
    pub self_feeding: usize,
    /// Inputs, flip-flops and gates in any order.
    pub mixed: bool,
    /// Further outputs, all masked by one further input: OR or NOR of it and a line, mostly what a flip-flop
    /// pin names. With the input stuck at 0 they show lines that may be unknown.
    pub watches: usize,
}

impl Shape {
    pub const SMALL: Shape = Shape {
        inputs: 2,
        flip_flops: 3,
        gates: 8,
        outputs: 2,
        input_pins: 25,
        flip_flop_pins: 35,
        parity_gates: 20,
        self_feeding: 15,
        mixed: true,
        watches: 3,
    };

    /// The bytes of a random circuit of this shape.
    pub fn circuit(&self, random: &mut Random) -> Vec<u8> {
        let roles = self.roles(random);
        let is_output = self.choose_outputs(&roles, random);
        let mut bytes = Vec::new();
        for line in 0..roles.len() {
            let (kind, pins) = match roles[line] {
                Role::Input => (0, vec![]),
                Role::FlipFlop => (1, vec![self.flip_flop_pin(line, &roles, random)]),
                Role::Gate => self.gate(line, &roles, random),
            };
            bytes.extend(line_record(kind, is_output[line] as u8, &pins));
        }
        if self.watches > 0 {
            add_watches(&mut bytes, self.watches, random);
        }
        bytes
    }

    /// The roles of the lines; the first is no gate.
    fn roles(&self, random: &mut Random) -> Vec<Role> {
        let counts = [(Role::Input, self.inputs), (Role::FlipFlop, self.flip_flops), (Role::Gate, self.gates)];
        let mut roles: Vec<Role> = counts.iter().flat_map(|&(role, count)| vec![role; count]).collect();
        if self.mixed {
            random.shuffle(&mut roles);
            let first = roles.iter().position(|&role| role != Role::Gate).expect("some input");
            roles.swap(0, first);
        }
        roles
    }

    /// Three outputs in four are gates, the rest any lines; of few lines all are outputs.
    fn choose_outputs(&self, roles: &[Role], random: &mut Random) -> Vec<bool> {
        let mut is_output = vec![false; roles.len()];
        let mut missing = self.outputs.min(roles.len());
        while missing > 0 {
            let line = random.below(roles.len());
            let many_gates = self.gates > 2 * self.outputs;
            if !is_output[line] && (roles[line] == Role::Gate || !many_gates || random.percent(15)) {
                is_output[line] = true;
                missing -= 1;
            }
        }
        is_output
    }

    /// Itself, any line, or a gate.
    fn flip_flop_pin(&self, line: usize, roles: &[Role], random: &mut Random) -> usize {
        if random.percent(self.self_feeding) {
            return line;
        }
        let any = random.below(roles.len());
        if random.percent(10) {
            return any;
        }
        named(roles, Role::Gate, random).unwrap_or(any)
    }

    /// Kind and pins of a gate at this line.
    fn gate(&self, line: usize, roles: &[Role], random: &mut Random) -> (u8, Vec<usize>) {
        let kind = match random.below(100) {
            chance if chance < self.parity_gates => random.between(8, 9),
            chance if chance < self.parity_gates + 12 => random.between(2, 3),
            _ => random.between(4, 7),
        } as u8;
        let pin_count = if kind < 4 { 1 } else { random.pick(&[2, 2, 2, 2, 2, 3, 3, 4]) };
        let mut pins: Vec<usize> = Vec::new();
        for _ in 0..pin_count {
            let again = pins.last().copied().filter(|_| random.percent(6));
            pins.push(again.unwrap_or_else(|| self.gate_pin(&roles[..line], random)));
        }
        (kind, pins)
    }

    /// An input, a flip-flop, one of the lines just below, or any lower line.
    fn gate_pin(&self, lower: &[Role], random: &mut Random) -> usize {
        let chance = random.below(100);
        let wanted = if chance < self.input_pins {
            named(lower, Role::Input, random)
        } else if chance < self.input_pins + self.flip_flop_pins {
            named(lower, Role::FlipFlop, random)
        } else if random.percent(60) {
            Some(lower.len() - 1 - random.below(lower.len().min(8)))
        } else {
            None
        };
        wanted.unwrap_or_else(|| random.below(lower.len()))
    }
}

/// An input, then outputs that it masks.
fn add_watches(circuit: &mut Vec<u8>, watches: usize, random: &mut Random) {
    let mask = circuit.len() / 12;
    let flip_flops = circuit.chunks_exact(12).filter(|record| record[0] == 1);
    let pin_lines: Vec<usize> = flip_flops.map(|record| record[4] as usize + 256 * record[5] as usize).collect();
    circuit.extend(line_record(0, 0, &[]));
    for _ in 0..watches {
        let any = random.below(mask);
        let watched = if pin_lines.is_empty() || random.percent(20) { any } else { random.pick(&pin_lines) };
        circuit.extend(line_record(random.pick(&[6, 7]), 1, &[mask, watched]));
    }
}

#[derive(Clone, Copy, PartialEq)]
enum Role {
    Input,
    FlipFlop,
    Gate,
}

/// A random line of this role.
fn named(roles: &[Role], role: Role, random: &mut Random) -> Option<usize> {
    let lines: Vec<usize> = (0..roles.len()).filter(|&line| roles[line] == role).collect();
    (!lines.is_empty()).then(|| random.pick(&lines))
}

/// A test in which each input has its own share of ones; the last input, if it masks, is mostly 1.
pub fn test(shape: Shape, time_units: usize, random: &mut Random) -> Vec<u8> {
    let mut shares: Vec<usize> = (0..shape.inputs).map(|_| random.pick(&[10, 30, 50, 50, 70, 90])).collect();
    if shape.watches > 0 {
        shares.push(random.pick(&[50, 80, 100]));
    }
    let units = (0..time_units).flat_map(|_| shares.iter());
    units.map(|&share| random.percent(share) as u8).collect()
}

/// Every line and every pin of the circuit, stuck at 0 and at 1.
pub fn every_fault(circuit: &[u8]) -> Vec<(usize, usize, u8)> {
    let places = circuit.chunks_exact(12).enumerate();
    let places = places.flat_map(|(line, record)| (0..=record[1] as usize).map(move |pin| (line, pin)));
    places.flat_map(|(line, pin)| [(line, pin, 0), (line, pin, 1)]).collect()
}

/// So many faults of the circuit, repeats among them.
pub fn faults(circuit: &[u8], count: usize, random: &mut Random) -> Vec<u8> {
    let every = every_fault(circuit);
    let faults: Vec<_> = (0..count).map(|_| random.pick(&every)).collect();
    fault_bytes(&faults)
}

/// A plan that mixes pairs that name something, pairs that name nothing, and repeats.
pub fn plan(pairs: usize, time_units: usize, flip_flops: usize, random: &mut Random) -> Vec<u8> {
    let mut plan: Vec<(usize, usize)> = Vec::new();
    for _ in 0..pairs {
        let sense = (random.below(time_units), random.below(flip_flops.max(1)));
        let beyond = [(time_units, sense.1), (sense.0, flip_flops), (65_535, 0), (0, 65_535), (256, 256)];
        plan.push(match random.below(10) {
            0 => random.pick(&beyond),
            1 => plan.last().copied().unwrap_or(sense),
            2 if !plan.is_empty() => random.pick(&plan),
            _ => sense,
        });
    }
    plan_bytes(&plan)
}

/// A random job of this shape.
pub fn job(shape: Shape, time_units: usize, faults_wanted: usize, k: usize, seed: u64) -> LentJob {
    let mut random = Random(seed);
    let circuit = shape.circuit(&mut random);
    let test = test(shape, time_units, &mut random);
    let faults = faults(&circuit, faults_wanted, &mut random);
    let pairs = random.below(2 * k + 4);
    let plan = plan(pairs, time_units, shape.flip_flops, &mut random);
    LentJob::new(circuit, test, faults, plan, k)
}

#[cfg(test)]
mod tests {
    use super::*;

    #[test]
    fn a_job_of_any_shape_is_made_and_accepted() {
        let mut random = Random(1);
        for _ in 0..500 {
            let shape = Shape {
                inputs: random.between(1, 40),
                flip_flops: random.below(3),
                gates: random.below(4),
                outputs: random.between(1, 60),
                watches: random.below(3),
                mixed: random.percent(50),
                ..Shape::SMALL
            };
            let job = job(shape, random.between(1, 3), 2, 6, random.next());
            assert_eq!(job.records().map(|records| records.len()), Ok(2));
        }
    }
}
