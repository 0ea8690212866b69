//! Random runs of the program `random`: circuits of all sizes, one in ten damaged, seeds and units in both notations.

use crate::bytes::LentJob;
use crate::damage::break_row;
use crate::jobs::Shape;
use crate::mixture;
use crate::program::AREA_LEN;
use crate::random::Random;
use crate::sequence::Sequence;

/// A run; one in five on a circuit of many inputs, mostly to fill the area that the program lends or just pass it.
pub fn sequence(random: &mut Random) -> Sequence {
    let (circuit, units) = if random.percent(20) { filling(random) } else { (mixture::circuit(random), units(random)) };
    let circuit = if random.percent(10) { damaged(circuit, random) } else { circuit };
    let seed = seed(random);
    Sequence { circuit, seed: written(seed as u128, random), units }
}

fn filling(random: &mut Random) -> (Vec<u8>, String) {
    let inputs = random.pick(&[64, 65, 66, 100, 127, 128, 200, 255, 256]);
    let shape = Shape { inputs, flip_flops: random.below(3), outputs: 1, watches: 0, ..Shape::SMALL };
    let full = AREA_LEN / inputs + random.below(2);
    let units = if random.percent(60) { written(full as u128, random) } else { units(random) };
    (shape.circuit(random), units)
}

/// One of rows 1 to 6 broken, or two; no longer than a file of the program may be.
fn damaged(circuit: Vec<u8>, random: &mut Random) -> Vec<u8> {
    let mut job = LentJob { circuit, ..LentJob::default() };
    (0..random.pick(&[1, 1, 2])).for_each(|_| break_row(&mut job, random.between(1, 6), random));
    job.circuit.truncate(AREA_LEN);
    job.circuit
}

/// Zero, the first and the last seed, the one that is stated, a single bit, or any.
fn seed(random: &mut Random) -> usize {
    match random.below(100) {
        0..12 => 0,
        12..22 => 1,
        22..32 => 65_535,
        32..37 => 0xace1,
        37..45 => 1 << random.below(16),
        _ => random.below(65_536),
    }
}

/// Mostly few; also at the limits, of more than 16, 32 and 64 bits with few in the lowest, and of many digits.
fn units(random: &mut Random) -> String {
    let number = match random.below(100) {
        0..55 => random.between(1, 40) as u128,
        55..73 => random.between(1, 1024) as u128,
        73..77 => 0,
        77..83 => 1024,
        83..87 => 1025,
        87..90 => 65_537,
        90..95 => (1 << random.pick(&[16, 32, 64])) + random.below(1025) as u128,
        _ => return many_digits(random),
    };
    written(number, random)
}

/// A power of two of many bits and few more in hexadecimal, or any decimal digits.
fn many_digits(random: &mut Random) -> String {
    if random.percent(50) {
        let (few, width) = (random.below(1025), random.pick(&[4, 8, 16, 32, 64, 200]));
        return format!("0x1{few:0width$x}");
    }
    let digits: String = (0..random.between(18, 200)).map(|_| random.pick(&['0', '1', '5', '9'])).collect();
    format!("{}{digits}", random.between(1, 9))
}

/// In decimal, or 0x and hexadecimal digits of both cases; one in ten has zeros before its first digit.
fn written(number: u128, random: &mut Random) -> String {
    let zeros = "0".repeat(if random.percent(10) { random.between(1, 20) } else { 0 });
    if random.percent(50) {
        return format!("{zeros}{number}");
    }
    let digits = format!("{number:x}");
    let either_case = |digit: char| if random.percent(50) { digit.to_ascii_uppercase() } else { digit };
    format!("0x{zeros}{}", digits.chars().map(either_case).collect::<String>())
}

#[cfg(test)]
mod tests {
    use super::*;
    use crate::sequence::number;

    #[test]
    fn a_number_is_read_back_as_it_was_written() {
        let mut random = Random(1);
        for _ in 0..1000 {
            let seed = random.below(65_536);
            assert_eq!(number(&written(seed as u128, &mut random)), seed);
        }
    }

    #[test]
    fn units_of_many_digits_are_too_many() {
        let mut random = Random(2);
        for _ in 0..1000 {
            let units = many_digits(&mut random);
            assert!(number(&units) > 1024, "{units}");
        }
    }

    #[test]
    fn every_refusal_is_met_and_the_area_is_filled() {
        let mut random = Random(3);
        let (mut filled, mut done, mut refusals) = (0, 0, [0; 18]);
        for _ in 0..4000 {
            match sequence(&mut random).call().answer().done {
                Ok(AREA_LEN) => filled += 1,
                Ok(_) => done += 1,
                Err((number, _)) => refusals[number as usize] += 1,
            }
        }
        assert!(filled > 20 && done > 2000, "{filled} filled, {done} done");
        assert!([1, 2, 3, 4, 5, 6, 14, 16, 17].iter().all(|&number| refusals[number] > 20), "{refusals:?}");
    }
}
