//! Circuits in which two implications may give one bit opposite values. AND(b, XOR(a, b)) at 1 implies b = 1 and
//! a = 0, but a = 1 alone leaves it X, so that plain evaluation does not see that a second such gate, which
//! implies a = 1, cannot be 1 with it.

use crate::bytes::{fault_bytes, Builder, LentJob};
use crate::random::Random;

/// The input that masks the outputs; stuck at 0 it lets them show lines that are unknown.
const MASK: usize = 0;
/// The input that decides whether the second mask, an AND with the first, is on.
const SECOND: usize = 1;

/// The mask is stuck at 0.
pub const FAULT: (usize, usize, u8) = (MASK, 0, 0);

/// A random job of such a circuit with that fault.
pub fn job(seed: u64) -> LentJob {
    let mut random = Random(seed);
    let mut builder = Builder::default();
    builder.add(0, 0, &[]);
    builder.add(0, 0, &[]);
    let flip_flops = random.between(3, 6);
    for _ in 0..flip_flops {
        builder.add(1, 0, &[]);
    }
    let hidden: Vec<usize> = (0..random.between(2, 4)).map(|_| hide(&mut builder, flip_flops, &mut random)).collect();
    let second_mask = builder.add(4, 0, &[MASK, SECOND]);
    for flip_flop in 2..2 + flip_flops {
        let choices =
            [flip_flop, 2 + random.below(flip_flops), random.pick(&hidden), 2 + random.below(second_mask - 2)];
        builder.set_pin(flip_flop, random.pick(&choices));
    }
    for &line in &hidden {
        let mask = if random.percent(60) { MASK } else { second_mask };
        builder.add(6, 1, &[mask, line]);
    }
    if random.percent(50) {
        show_both_ways(&mut builder, random.pick(&[MASK, second_mask]), 2 + random.below(flip_flops));
    }
    let units = random.between(2, 5);
    let test = (0..units).flat_map(|_| [random.percent(80) as u8, random.percent(50) as u8]).collect();
    LentJob::new(builder.bytes(), test, fault_bytes(&[FAULT]), vec![], random.below(7))
}

/// XOR or XNOR of two lines, then AND or NOR of it and one of them; gives the latter's line.
fn hide(builder: &mut Builder, flip_flops: usize, random: &mut Random) -> usize {
    let below = builder.line_count();
    let mut any = || {
        let among = if random.percent(70) { flip_flops } else { below - 2 };
        2 + random.below(among)
    };
    let (line, again, other, another) = (any(), any(), any(), any());
    let parity = builder.add(random.pick(&[8, 9]), 0, &[line, again]);
    let hidden = builder.add(random.pick(&[4, 7]), 0, &[again, parity]);
    if random.percent(30) {
        builder.add(random.between(4, 7) as u8, 0, &[other, another]);
    }
    hidden
}

/// Outputs that show a flip-flop and its inverse when the mask is 0: neither value is possible.
pub fn show_both_ways(builder: &mut Builder, mask: usize, line: usize) {
    builder.add(6, 1, &[mask, line]);
    let inverse = builder.add(3, 0, &[line]);
    builder.add(6, 1, &[mask, inverse]);
}

/// Seventy flip-flops, of which one is written with opposite values by two others; the last but one may be shown
/// both ways at this unit.
pub fn spread(bit: usize, first: usize, second: usize, both_ways_at: Option<usize>) -> LentJob {
    let mut builder = Builder::default();
    builder.add(0, 0, &[]);
    builder.add(0, 0, &[]);
    let lines: Vec<usize> = (0..70).map(|_| builder.add(1, 0, &[])).collect();
    lines.iter().for_each(|&line| builder.set_pin(line, line));
    for (i, parity_kind) in [(first, 8), (second, 9)] {
        let parity = builder.add(parity_kind, 0, &[lines[bit], lines[i]]);
        let hidden = builder.add(4, 0, &[lines[i], parity]);
        builder.set_pin(lines[i], hidden);
        builder.add(6, 1, &[MASK, hidden]);
    }
    let second_mask = builder.add(4, 0, &[MASK, SECOND]);
    show_both_ways(&mut builder, second_mask, lines[68]);
    let test = (0..3).flat_map(|u| [1, (both_ways_at == Some(u)) as u8]).collect();
    let faults = fault_bytes(&[FAULT, (SECOND, 0, 0), (MASK, 0, 1), (lines[bit], 0, 1), (lines[first], 1, 0)]);
    LentJob::new(builder.bytes(), test, faults, vec![], 2)
}
