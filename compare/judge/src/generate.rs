//! The call Generate: refuses, or fills a test for a circuit from a seed: one step of a 16-bit number per byte.
//! The seed itself is never a byte.

use crate::calls::{Answer, FILL};
use crate::refusals::{read_circuit, Refusal};

/// The number of bytes written, or number and position of a refusal.
pub fn generate(circuit: &[u8], seed: u16, units: usize, result: &mut [u8]) -> Result<usize, Refusal> {
    let inputs = read_circuit(circuit)?.inputs.len();
    if seed == 0 {
        return Err((16, 0));
    }
    if !(1..=1024).contains(&units) {
        return Err((17, 0));
    }
    let length = units * inputs;
    if result.len() < length {
        return Err((14, 0));
    }
    let mut number = seed;
    for byte in &mut result[..length] {
        number = step(number);
        *byte = (number & 1) as u8;
    }
    Ok(length)
}

/// Right by one; if the bit shifted out was 1, exclusive or with hexadecimal B400.
fn step(number: u16) -> u16 {
    let shifted = number >> 1;
    if number & 1 == 1 {
        shifted ^ 0xb400
    } else {
        shifted
    }
}

/// A call with all that is lent to it.
#[derive(Clone)]
pub struct GenerateCall {
    pub circuit: Vec<u8>,
    pub seed: u16,
    pub units: usize,
    pub result_len: usize,
}

impl GenerateCall {
    pub fn answer(&self) -> Answer {
        let mut result = vec![FILL; self.result_len];
        let done = generate(&self.circuit, self.seed, self.units, &mut result);
        Answer { done, result }
    }
}

#[cfg(test)]
mod tests {
    use super::*;
    use crate::bytes::circuit_bytes;
    use crate::refusals::read_test;

    /// Two inputs, neither of which is the first line.
    fn circuit() -> Vec<u8> {
        circuit_bytes(&[(1, 0, &[2]), (0, 0, &[]), (4, 1, &[0, 1]), (0, 0, &[])])
    }

    /// A circuit that row 4 refuses at line 2.
    fn bad_circuit() -> Vec<u8> {
        let mut circuit = circuit();
        circuit[2 * 12 + 3] = 1;
        circuit
    }

    fn answer(circuit: Vec<u8>, seed: u16, units: usize, result_len: usize) -> Answer {
        GenerateCall { circuit, seed, units, result_len }.answer()
    }

    fn words(seed: u16, units: usize, result_len: usize) -> String {
        answer(circuit(), seed, units, result_len).words()
    }

    #[test]
    fn ace1_steps_as_stated() {
        let numbers = [0xace1, 0xe270, 0x7138, 0x389c, 0x1c4e, 0x0e27, 0xb313, 0xed89, 0xc2c4];
        for pair in numbers.windows(2) {
            assert_eq!(step(pair[0]), pair[1], "the step of {:04x}", pair[0]);
        }
        assert_eq!(answer(circuit(), 0xace1, 4, 8).result, [0, 0, 0, 0, 1, 1, 1, 0]);
    }

    #[test]
    fn steps_come_back_to_the_seed_after_all_other_numbers() {
        for seed in [1, 0xace1, 65_535] {
            let mut numbers = std::iter::successors(Some(step(seed)), |&number| Some(step(number)));
            assert_eq!(numbers.position(|number| number == seed), Some(65_534));
        }
    }

    #[test]
    fn seeds_but_zero_are_taken() {
        assert_eq!(words(0, 1, 2), "refused 16 0");
        // 1 steps to B400 and 5A00; 65535 to CBFF and D1FF; 2 to 1 and B400.
        for (seed, bytes) in [(1, [0, 0]), (65_535, [1, 1]), (2, [1, 0])] {
            assert_eq!(answer(circuit(), seed, 1, 2).result, bytes);
        }
    }

    #[test]
    fn units_are_1_to_1024() {
        assert_eq!([1, 2, 1024].map(|units| words(1, units, 2048)), ["done 2", "done 4", "done 2048"]);
        for units in [0, 1025, 65_536, 65_537, 1 << 32, (1 << 32) + 1, usize::MAX] {
            assert_eq!(words(1, units, 2048), "refused 17 0", "{units} units");
        }
    }

    #[test]
    fn the_area_holds_the_test_and_keeps_the_rest() {
        assert_eq!(
            [8, 9, 7, 0].map(|length| words(1, 4, length)),
            ["done 8", "done 8", "refused 14 0", "refused 14 0"]
        );
        let [exact, longer, short] = [8, 9, 7].map(|length| answer(circuit(), 1, 4, length).result);
        assert_eq!(longer, [&exact[..], &[FILL]].concat());
        assert_eq!(short, [FILL; 7]);
    }

    #[test]
    fn the_circuit_comes_first_then_the_seed_then_the_units_then_the_area() {
        assert_eq!(answer(bad_circuit(), 0, 0, 0).words(), "refused 4 2");
        assert_eq!(answer(bad_circuit(), 0, 4, 8).words(), "refused 4 2");
        assert_eq!(answer(vec![], 0, 4, 8).words(), "refused 1 0");
        assert_eq!(words(0, 0, 0), "refused 16 0");
        assert_eq!(words(0, 4, 7), "refused 16 0");
        assert_eq!(words(1, 0, 0), "refused 17 0");
        assert_eq!(words(1, 1025, 7), "refused 17 0");
        assert_eq!(words(1, 4, 7), "refused 14 0");
    }

    #[test]
    fn a_refused_call_keeps_the_area() {
        let refused = [(bad_circuit(), 1, 4, 8), (circuit(), 0, 4, 8), (circuit(), 1, 0, 8), (circuit(), 1, 4, 7)];
        for (circuit, seed, units, result_len) in refused {
            let answer = answer(circuit, seed, units, result_len);
            assert!(answer.done.is_err() && answer.result == vec![FILL; result_len]);
        }
    }

    #[test]
    fn what_is_written_is_a_test_of_that_circuit() {
        let read = read_circuit(&circuit()).expect("the circuit is accepted");
        for (seed, units) in [(1, 1), (0xace1, 17), (65_535, 1024)] {
            assert_eq!(read_test(&read, &answer(circuit(), seed, units, 2 * units).result), Ok(units));
        }
    }
}
