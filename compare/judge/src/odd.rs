//! Tiny circuits of odd structure: outputs that are inputs or flip-flops, flip-flops that feed themselves, one line on
//! several pins of a gate, lines that lead nowhere.

use crate::bytes::{Builder, LentJob};
use crate::random::Random;

/// A circuit of one line to a dozen and a test of so many units; no fault and no plan.
pub fn job(time_units: usize, random: &mut Random) -> LentJob {
    let kinds = kinds(random);
    let outputs = outputs(kinds.len(), random);
    let mut builder = Builder::default();
    for (line, &kind) in kinds.iter().enumerate() {
        let pins = pins(kind, line, kinds.len(), random);
        builder.add(kind, outputs[line] as u8, &pins);
    }
    let inputs = kinds.iter().filter(|&&kind| kind == 0).count();
    let shares: Vec<usize> = (0..inputs).map(|_| random.pick(&[0, 20, 50, 80, 100])).collect();
    let units = (0..time_units).flat_map(|_| shares.iter());
    let test = units.map(|&share| random.percent(share) as u8).collect();
    LentJob::new(builder.bytes(), test, vec![], vec![], 0)
}

/// Kinds of which some line is an input and the first no gate.
fn kinds(random: &mut Random) -> Vec<u8> {
    let lines = if random.percent(5) { 1 } else { random.between(2, 12) };
    let flip_flops = random.pick(&[0, 20, 30, 50]);
    let mut kinds: Vec<u8> = Vec::new();
    for line in 0..lines {
        kinds.push(match random.below(100) {
            chance if chance < flip_flops => 1,
            chance if chance < flip_flops + 15 || line == 0 => 0,
            _ => random.between(2, 9) as u8,
        });
    }
    if !kinds.contains(&0) {
        kinds[random.below(lines)] = 0;
    }
    kinds
}

/// Some lines, or all, and at least one.
fn outputs(lines: usize, random: &mut Random) -> Vec<bool> {
    let share = random.pick(&[0, 20, 40, 100]);
    let mut outputs: Vec<bool> = (0..lines).map(|_| random.percent(share)).collect();
    if !outputs.contains(&true) {
        outputs[lines - 1 - random.below(lines.min(3))] = true;
    }
    outputs
}

/// Pins of a line of this kind: a flip-flop names any line, often itself; a gate lower ones, often one twice.
fn pins(kind: u8, line: usize, lines: usize, random: &mut Random) -> Vec<usize> {
    match kind {
        0 => vec![],
        1 => vec![if random.percent(20) { line } else { random.below(lines) }],
        _ => {
            let count = if kind < 4 { 1 } else { random.pick(&[2, 2, 3, 4]) };
            let mut pins: Vec<usize> = vec![random.below(line)];
            while pins.len() < count {
                pins.push(if random.percent(15) { pins[0] } else { random.below(line) });
            }
            pins
        }
    }
}
