//! The programs `bench` and `names`: what each writes for the bytes of its file.

use crate::bench_text::{names, read};
use crate::refusals::Refusal;
use crate::scratch::Run;

/// The file that both read when they are given no argument.
pub const FILE: &str = "circuit.bench";

/// The most bytes of a circuit's records.
const LONGEST_CIRCUIT: usize = 49_152;

#[derive(Clone, Copy, PartialEq, Debug)]
pub enum Program {
    Bench,
    Names,
}

impl Program {
    pub fn name(self) -> &'static str {
        match self {
            Program::Bench => "bench",
            Program::Names => "names",
        }
    }

    /// The bytes that it writes to standard output, or the refusal.
    pub fn print(self, text: &[u8]) -> Result<Vec<u8>, Refusal> {
        match self {
            Program::Bench => {
                let mut result = vec![0; LONGEST_CIRCUIT];
                let count = read(text, &mut result)?;
                result.truncate(12 * count);
                Ok(result)
            }
            Program::Names => {
                let line = |(number, name): (usize, &&[u8])| [format!("{number} ").as_bytes(), name, b"\n"].concat();
                Ok(names(text)?.iter().enumerate().flat_map(line).collect())
            }
        }
    }

    /// How the line begins that tells the refusal; words follow. Text lines are told from 1.
    pub fn telling(self, (number, position): Refusal) -> String {
        let place = if number >= 18 { format!(" at text line {}", position + 1) } else { String::new() };
        format!("{}: refused {number}{place}: ", self.name())
    }

    /// Whether a run wrote what it should.
    pub fn agrees(self, expected: &Result<Vec<u8>, Refusal>, run: &Run) -> bool {
        match expected {
            Ok(bytes) => run.succeeded && run.print == *bytes && run.errors.is_empty(),
            Err(refusal) => run.print.is_empty() && run.tells(&self.telling(*refusal)),
        }
    }
}

#[cfg(test)]
mod tests {
    use super::*;

    const TEXT: &[u8] = b"OUTPUT(z)\nINPUT(a)\nz = NOT(a)\n";

    fn run(print: &[u8], errors: &str, succeeded: bool) -> Run {
        Run { print: print.to_vec(), errors: errors.as_bytes().to_vec(), succeeded }
    }

    #[test]
    fn an_accepted_text_is_written_alone() {
        let records = [[0; 12], [3, 1, 1, 0, 0, 0, 0, 0, 0, 0, 0, 0]].concat();
        for (program, print) in [(Program::Bench, records), (Program::Names, b"0 a\n1 z\n".to_vec())] {
            let expected = program.print(TEXT);
            assert_eq!(expected, Ok(print.clone()));
            assert!(program.agrees(&expected, &run(&print, "", true)));
            assert!(!program.agrees(&expected, &run(&print, "", false)));
            assert!(!program.agrees(&expected, &run(&print, "x", true)));
            assert!(!program.agrees(&expected, &run(&print[1..], "", true)));
            assert!(!program.agrees(&expected, &run(&[&print[..], b"\n"].concat(), "", true)));
        }
    }

    #[test]
    fn a_refused_text_is_told_in_one_line() {
        let (bench, names) = (Program::Bench, Program::Names);
        let told = |program: Program, text: &[u8], errors: &str| {
            let expected = program.print(text);
            assert!(!program.agrees(&expected, &run(b"x", errors, false)));
            program.agrees(&expected, &run(b"", errors, false))
        };
        assert!(told(bench, b"INPUT(a)\nINPUT(a)\n", "bench: refused 19 at text line 2: a is defined above\n"));
        assert!(told(names, b"INPUT(a)\nx", "names: refused 18 at text line 2: of no form\n"));
        assert!(told(names, b"OUTPUT(a)", "names: refused 20 at text line 1: a\n"));
        assert!(told(bench, b"", "bench: refused 1: no line\n"));
        assert!(told(bench, b"INPUT(a)", "bench: refused 6: no output\n"));
        let others = [
            "names: refused 18 at text line 2: x\n",
            "bench: refused 18 at text line 1: x\n",
            "bench: refused 18: x\n",
            "bench: refused 18 at text line 2: x",
            "bench: refused 18 at text line 2: \n",
            "bench: refused 18 1: x\n",
            "bench: refused 18 at text line 2: x\ny\n",
            "bench: refused 19 at text line 2: x\n",
            "",
            " bench: refused 18 at text line 2: x\n",
            "bench: refused 18 at text line 20: x\n",
        ];
        for other in others {
            assert!(!told(bench, b"INPUT(a)\nx", other), "{other:?}");
        }
        assert!(!told(bench, b"", "bench: refused 1 at text line 1: no line\n"));
    }
}
