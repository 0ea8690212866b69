//! Calls of Generate with their answers, for a test program that makes one after another.

use crate::bytes::{circuit_bytes, line_record, Line};
use crate::calls::{hexadecimal, Answer};
use crate::generate::GenerateCall;
use crate::refusals::read_circuit;
use crate::s27;
use std::{fs, io, path::Path};

/// The longest area that is printed byte by byte.
const LONGEST_SHOWN: usize = 64;

/// What the program prints after the last call: how many steps bring a number back to itself, for three of them.
const PERIODS: &str = "periods 65535 65535 65535\n";

/// Writes data/jobs.dat and stdout, and prints how many calls are done and refused.
pub fn write(directory: &Path) -> io::Result<()> {
    let calls = calls();
    let bytes: Vec<u8> = calls.iter().flat_map(call_bytes).collect();
    let print = calls.iter().map(|call| line(&call.answer())).collect::<String>() + PERIODS;
    fs::create_dir_all(directory.join("data"))?;
    fs::write(directory.join("data/jobs.dat"), &bytes)?;
    fs::write(directory.join("stdout"), &print)?;
    println!("{} calls, jobs.dat {} bytes, stdout {} bytes", calls.len(), bytes.len(), print.len());
    println!("longest result area {}", calls.iter().map(|call| call.result_len).max().unwrap_or(0));
    print_tally(&calls);
    Ok(())
}

fn print_tally(calls: &[GenerateCall]) {
    let mut refusals = [0; 18];
    let numbers = calls.iter().filter_map(|call| call.answer().done.err());
    numbers.for_each(|(number, _)| refusals[number as usize] += 1);
    let refused: usize = refusals.iter().sum();
    println!("{} done, refusals 1 to 17 {:?}", calls.len() - refused, &refusals[1..]);
}

/// 16-bit seed, 32-bit units and length of the result area, 16-bit length of the circuit, low byte first; the circuit.
fn call_bytes(call: &GenerateCall) -> Vec<u8> {
    let GenerateCall { circuit, seed, units, result_len } = call;
    let mut bytes = seed.to_le_bytes().to_vec();
    for number in [units, result_len] {
        bytes.extend(u32::try_from(*number).expect("a number of 32 bits").to_le_bytes());
    }
    bytes.extend(u16::try_from(circuit.len()).expect("a short circuit").to_le_bytes());
    bytes.extend(circuit);
    bytes
}

/// The words of the answer, then the whole result area if it has any bytes: they, or of many their checksum.
fn line(answer: &Answer) -> String {
    let area = match answer.result.len() {
        0 => String::new(),
        1..=LONGEST_SHOWN => format!(" {}", hexadecimal(&answer.result)),
        _ => format!(" {}", checksum(&answer.result)),
    };
    format!("{}{area}\n", answer.words())
}

fn checksum(bytes: &[u8]) -> u64 {
    bytes.iter().fold(1, |sum, &byte| (257 * sum + byte as u64) % 1_000_000_007)
}

fn calls() -> Vec<GenerateCall> {
    [seeds(), units(), areas(), many_inputs(), broken_circuits(), two_refusals()].concat()
}

/// One input, which is the output.
fn one_input() -> Vec<u8> {
    circuit_bytes(&[(0, 1, &[])])
}

/// Lines 1, 3 and 4 are inputs.
const THREE_INPUTS: &[Line] = &[(1, 0, &[5]), (0, 0, &[]), (3, 0, &[1]), (0, 0, &[]), (0, 1, &[]), (4, 1, &[2, 3, 4])];

fn three_inputs() -> Vec<u8> {
    circuit_bytes(THREE_INPUTS)
}

/// Every input is an output too.
fn most_inputs() -> Vec<u8> {
    line_record(0, 1, &[]).repeat(256)
}

/// A call with exactly enough bytes; where the units are refused, with enough for the nearest that are not.
fn exact(circuit: Vec<u8>, seed: u16, units: usize) -> GenerateCall {
    let inputs = read_circuit(&circuit).expect("the circuit is accepted").inputs.len();
    GenerateCall { circuit, seed, units, result_len: inputs * units.clamp(1, 1024) }
}

/// Every sort of seed; areas of 64 bytes or just fewer, which are printed whole.
fn seeds() -> Vec<GenerateCall> {
    let every = [0, 1, 2, 65_535, 0xace1, 0xb400, 0x8000];
    let of_s27 = every.map(|seed| exact(s27::circuit(), seed, 16));
    let of_one = [0, 0xace1, 65_535].map(|seed| exact(one_input(), seed, 64));
    let of_three = [0, 0xace1, 1].map(|seed| exact(three_inputs(), seed, 21));
    [&of_s27[..], &of_one, &of_three].concat()
}

/// Units at both limits and past them, some of which are few in their lowest 16 bits.
fn units() -> Vec<GenerateCall> {
    let every = [0, 1, 2, 1024, 1025, 65_536, 65_537, 4_294_967_295];
    let of = |circuit: Vec<u8>, seed| every.map(|units| exact(circuit.clone(), seed, units));
    [of(one_input(), 2), of(s27::circuit(), 0xace1), of(three_inputs(), 0x5a5a)].concat()
}

/// Areas of exactly enough bytes, one more, one short, and empty; the longest that is printed whole and one longer.
fn areas() -> Vec<GenerateCall> {
    let mut calls = Vec::new();
    let of_few = [exact(one_input(), 2, 1), exact(s27::circuit(), 0x8000, 5), exact(three_inputs(), 65_535, 7)];
    for call in of_few.into_iter().chain([exact(s27::circuit(), 0xace1, 1024)]) {
        let exact = call.result_len;
        calls.extend([exact, exact + 1, exact - 1, 0].map(|result_len| GenerateCall { result_len, ..call.clone() }));
    }
    calls.extend([64, 65].map(|units| exact(one_input(), 0xb400, units)));
    calls
}

/// 256 inputs: the longest test, and one whose length is 0 in its lowest 16 bits.
fn many_inputs() -> Vec<GenerateCall> {
    let lengths = [
        (0xace1, 1, 256),
        (0xb400, 2, 511),
        (1, 256, 65_536),
        (0x8000, 256, 65_535),
        (2, 256, 0),
        (65_535, 1024, 262_144),
        (0xace1, 1024, 262_145),
        (1, 1024, 262_143),
        (0xace1, 1025, 262_145),
        (0, 1024, 262_144),
    ];
    let call = |(seed, units, result_len)| GenerateCall { circuit: most_inputs(), seed, units, result_len };
    lengths.map(call).to_vec()
}

/// Each of rows 1 to 6 broken, alone and with the seed, the units or the area.
fn broken_circuits() -> Vec<GenerateCall> {
    let mut calls = Vec::new();
    for row in 1..=6 {
        let call = GenerateCall { circuit: broken(row), ..exact(three_inputs(), 0xace1, 4) };
        calls.push(match row % 3 {
            0 => GenerateCall { seed: 0, ..call.clone() },
            1 => GenerateCall { units: 1025, ..call.clone() },
            _ => GenerateCall { result_len: 11, ..call.clone() },
        });
        calls.push(call);
    }
    calls.push(GenerateCall { circuit: broken(5), seed: 0, units: 0, result_len: 0 });
    calls
}

/// The circuit of three inputs with this row broken.
fn broken(row: u8) -> Vec<u8> {
    let mut circuit = three_inputs();
    match row {
        1 => drop(circuit.pop()),
        2 => circuit[24] = 10,
        3 => circuit[61] = 5,
        4 => circuit[51] = 1,
        5 => circuit[68] = 5,
        _ => (circuit[50], circuit[62]) = (0, 0),
    }
    circuit
}

/// Seed and units, seed and area, units and area, and all three, on a circuit that is accepted.
fn two_refusals() -> Vec<GenerateCall> {
    let both = [(0, 0, 12), (0, 65_537, 12), (0, 4, 11), (1, 0, 0), (1, 1025, 11), (1, 65_537, 0), (0, 1025, 0)];
    let call = |(seed, units, result_len)| GenerateCall { circuit: three_inputs(), seed, units, result_len };
    both.map(call).to_vec()
}

#[cfg(test)]
mod tests {
    use super::*;

    #[test]
    fn the_calls_are_small_and_meet_every_refusal() {
        let calls = calls();
        assert!(calls.iter().map(|call| call_bytes(call).len()).sum::<usize>() <= 60_000);
        assert!(calls.iter().all(|call| call.result_len <= 262_145));
        let refused = |number| calls.iter().any(|call| call.answer().done.is_err_and(|refusal| refusal.0 == number));
        assert!([1, 2, 3, 4, 5, 6, 14, 16, 17].into_iter().all(refused));
    }

    #[test]
    fn a_broken_row_refuses_before_all_else() {
        let refusals = [(1, 0), (2, 2), (3, 5), (4, 4), (5, 5), (6, 0)];
        for call in broken_circuits() {
            let refusal = call.answer().done.expect_err("the circuit is refused");
            assert_eq!(call.circuit, broken(refusal.0));
            assert!(refusals.contains(&refusal));
        }
    }

    #[test]
    fn a_line_shows_the_area_or_its_checksum() {
        let line_of = |result: Vec<u8>| line(&Answer { done: Err((14, 0)), result });
        assert_eq!(line_of(vec![]), "refused 14 0\n");
        assert_eq!(line_of(vec![0, 1, 165]), "refused 14 0 0001a5\n");
        assert_eq!(line_of(vec![1; 64]), format!("refused 14 0 {}\n", "01".repeat(64)));
        assert_eq!(line_of(vec![0; 65]), format!("refused 14 0 {}\n", checksum(&[0; 65])));
        assert_eq!([checksum(&[]), checksum(&[3]), checksum(&[3, 5])], [1, 260, 66_825]);
    }

    #[test]
    fn the_header_is_low_byte_first() {
        let call = GenerateCall { circuit: one_input(), seed: 0xace1, units: 65_537, result_len: 258 };
        assert_eq!(call_bytes(&call)[..12], [0xe1, 0xac, 1, 0, 1, 0, 2, 1, 0, 0, 12, 0]);
    }
}
