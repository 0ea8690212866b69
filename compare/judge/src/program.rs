//! What the program prints for the bytes of its four files.

use crate::grade::grade;
use crate::group::group;
use crate::refusals::Refusal;
use std::fmt::Write;

/// In the order in which they are looked at.
pub const FILES: [&str; 4] = ["circuit.dat", "test.dat", "faults.dat", "plan.dat"];

/// The length of each area, and the most bytes of a file.
pub const AREA_LEN: usize = 65_536;

pub const K: usize = 6;

/// A missing file is given as empty.
pub fn print(files: [&[u8]; 4]) -> String {
    if let Some(position) = files.iter().position(|file| file.len() > AREA_LEN) {
        return format!("too long {}\n", FILES[position]);
    }
    match list(files) {
        Ok(text) => text,
        Err((number, position)) => format!("refused {number} {position}\n"),
    }
}

/// Per fault: line, pin, value, the record's first eight fields, group. After the last fault: the total.
fn list([circuit, test, faults, plan]: [&[u8]; 4]) -> Result<String, Refusal> {
    let mut records = vec![0; AREA_LEN];
    let count = grade(circuit, test, faults, plan, K, AREA_LEN, &mut records)?;
    let mut groups = vec![0; AREA_LEN];
    group(&records[..16 * count], &mut groups)?;
    let mut text = String::new();
    for (n, fault) in faults.chunks_exact(4).enumerate() {
        let record = &records[16 * n..][..14];
        write!(text, "{} {} {}", number(fault), fault[2], fault[3]).expect("text can be written");
        write!(text, " {} {}", record[0], record[1]).expect("text can be written");
        for field in record[2..].chunks_exact(2) {
            write!(text, " {}", number(field)).expect("text can be written");
        }
        writeln!(text, " {}", number(&groups[2 * n..])).expect("text can be written");
    }
    Ok(text + &total(&records[..16 * count]))
}

/// `total` and, for verdicts 1 to 7, the number of records with that verdict.
fn total(records: &[u8]) -> String {
    let with = |verdict: u8| records.chunks_exact(16).filter(|record| record[0] == verdict).count();
    let counts: Vec<String> = (1..=7).map(|verdict| with(verdict).to_string()).collect();
    format!("total {}\n", counts.join(" "))
}

fn number(field: &[u8]) -> u16 {
    u16::from_le_bytes([field[0], field[1]])
}

#[cfg(test)]
mod tests {
    use super::*;

    #[test]
    fn every_verdict_has_its_place_in_the_total() {
        let records = [7, 1, 6, 2, 7, 5, 4, 7, 3, 6].map(|verdict| [verdict; 16]).concat();
        assert_eq!(total(&records), "total 1 1 1 1 1 2 3\n");
    }

    #[test]
    fn the_first_file_that_is_too_long_is_named() {
        let (longest, too_long) = (vec![0; AREA_LEN], vec![0; AREA_LEN + 1]);
        assert_eq!(print([&longest, &[], &too_long, &too_long]), "too long faults.dat\n");
        assert_eq!(print([&too_long, &too_long, &[], &[]]), "too long circuit.dat\n");
        assert_eq!(print([&longest, &longest, &longest, &longest]), "refused 1 0\n");
    }

    #[test]
    fn missing_files_are_empty() {
        let circuit = [0, 0, 1, 0, 0, 0, 0, 0, 0, 0, 0, 0];
        assert_eq!(print([&[], &[], &[], &[]]), "refused 1 0\n");
        assert_eq!(print([&circuit, &[], &[], &[]]), "refused 7 0\n");
        assert_eq!(print([&circuit, &[1], &[], &[]]), "total 0 0 0 0 0 0 0\n");
        assert_eq!(print([&circuit, &[1], &[0, 0, 0, 0], &[]]), "0 0 0 1 0 0 0 0 0 0 0 0\ntotal 1 0 0 0 0 0 0\n");
        assert_eq!(print([&circuit, &[1], &[0, 0, 0, 0].repeat(4097), &[]]), "refused 14 0\n");
    }
}
