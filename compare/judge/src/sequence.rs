//! The program `random`: the call that its circuit file and its two arguments make, and what it may write for it.

use crate::calls::Answer;
use crate::generate::GenerateCall;
use crate::program::AREA_LEN;
use crate::scratch::Run;

/// The file circuit.dat and both arguments, each in decimal, or 0x and hexadecimal digits.
pub struct Sequence {
    pub circuit: Vec<u8>,
    pub seed: String,
    pub units: String,
}

impl Sequence {
    pub fn call(&self) -> GenerateCall {
        let seed = u16::try_from(number(&self.seed)).expect("a seed of 16 bits");
        GenerateCall { circuit: self.circuit.clone(), seed, units: number(&self.units), result_len: AREA_LEN }
    }
}

/// The number that the text tells; one too large for the type is the largest of it.
pub fn number(text: &str) -> usize {
    let (digits, base) = text.strip_prefix("0x").map_or((text, 10), |digits| (digits, 16));
    let digits = digits.chars().map(|digit| digit.to_digit(base).expect("a digit") as usize);
    digits.fold(0_usize, |number, digit| number.saturating_mul(base as usize).saturating_add(digit))
}

/// An accepted call writes its test and nothing else; a refused one writes one line of words to standard error.
pub fn agrees(answer: &Answer, run: &Run) -> bool {
    match answer.done {
        Ok(length) => run.succeeded && run.print == answer.result[..length] && run.errors.is_empty(),
        Err((number, position)) => run.print.is_empty() && run.tells(&format!("random: refused {number} {position}: ")),
    }
}

#[cfg(test)]
mod tests {
    use super::*;

    #[test]
    fn numbers_are_read_in_both_notations() {
        assert_eq!(["0", "65535", "007"].map(number), [0, 65_535, 7]);
        assert_eq!(["0x0", "0xAcE1", "0x0000000000000000001f"].map(number), [0, 0xace1, 31]);
        assert_eq!(number("18446744073709551617"), usize::MAX);
        assert_eq!(number("0x10000000000000001"), usize::MAX);
    }

    #[test]
    fn an_accepted_call_writes_its_test_alone() {
        let answer = Answer { done: Ok(2), result: vec![0, 1, 165] };
        let run =
            |print: &[u8], errors: &[u8], succeeded| Run { print: print.to_vec(), errors: errors.to_vec(), succeeded };
        assert!(agrees(&answer, &run(&[0, 1], b"", true)));
        assert!(!agrees(&answer, &run(&[0, 1], b"", false)));
        assert!(!agrees(&answer, &run(&[0, 1], b"x", true)));
        assert!(!agrees(&answer, &run(&[0, 0], b"", true)));
        assert!(!agrees(&answer, &run(&[0], b"", true)));
        assert!(!agrees(&answer, &run(&[0, 1, 165], b"", true)));
    }

    #[test]
    fn a_refused_call_tells_number_and_position_in_one_line() {
        let answer = Answer { done: Err((5, 12)), result: vec![165] };
        let told = |print: &[u8], errors: &str| {
            agrees(&answer, &Run { print: print.to_vec(), errors: errors.as_bytes().to_vec(), succeeded: false })
        };
        assert!(told(b"", "random: refused 5 12: a pin\n"));
        assert!(!told(b"\0", "random: refused 5 12: a pin\n"));
        for other in ["5 1: a pin\n", "15 12: a pin\n", "5 12: \n", "5 12: a pin", "5 12: a\npin\n", "5 12\n"] {
            assert!(!told(b"", &format!("random: refused {other}")), "{other:?}");
        }
    }
}
