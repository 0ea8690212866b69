//! Circuits in which one bit tells others: flip-flops that take the same few lines, behind buffers, NOTs and gates.
//! The mask mostly comes on late, so that many time units have as many unknown outputs before them.

use crate::bytes::{Builder, LentJob};
use crate::random::Random;

/// The input that masks the outputs; stuck at 0 it lets them show lines that are unknown.
const MASK: usize = 0;
const OTHER: usize = 1;

/// A random circuit and a test of so many units; no fault and no plan.
pub fn job(time_units: usize, random: &mut Random) -> LentJob {
    let mut builder = Builder::default();
    builder.add(0, 0, &[]);
    builder.add(0, 0, &[]);
    let flip_flops: Vec<usize> = (0..random.between(2, 8)).map(|_| builder.add(1, 0, &[])).collect();
    (0..random.between(2, 8)).for_each(|_| add_gate(&mut builder, random));
    let lines = builder.line_count();
    let sources: Vec<usize> = (0..random.between(1, 4)).map(|_| random.between(OTHER + 1, lines - 1)).collect();
    for &flip_flop in &flip_flops {
        let choices = [random.pick(&sources), random.pick(&sources), flip_flop, random.below(lines)];
        builder.set_pin(flip_flop, random.pick(&choices));
    }
    for _ in 0..random.between(1, 4) {
        let watched = [random.pick(&sources), random.pick(&flip_flops)];
        builder.add(random.pick(&[6, 6, 7]), 1, &[MASK, random.pick(&watched)]);
    }
    LentJob::new(builder.bytes(), test(time_units, random), vec![], vec![], 0)
}

/// A gate of lower lines, seldom of the other input.
fn add_gate(builder: &mut Builder, random: &mut Random) {
    let kind = random.pick(&[2, 2, 3, 3, 4, 5, 6, 7, 8, 9]);
    let count = if kind < 4 { 1 } else { random.pick(&[2, 2, 3]) };
    let lowest = if random.percent(90) { OTHER + 1 } else { OTHER };
    let pins: Vec<usize> = (0..count).map(|_| random.between(lowest, builder.line_count() - 1)).collect();
    builder.add(kind, 0, &pins);
}

/// The mask is 1 from a late unit on, or any.
fn test(time_units: usize, random: &mut Random) -> Vec<u8> {
    let on_from = random.between(time_units / 2, time_units - 1);
    let is_late = random.percent(70);
    let unit = |u: usize| {
        let mask = if is_late { u >= on_from } else { random.percent(80) };
        [mask as u8, random.percent(50) as u8]
    };
    (0..time_units).flat_map(unit).collect()
}
