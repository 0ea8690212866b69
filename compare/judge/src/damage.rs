//! Jobs that rows 1 to 14 refuse: an accepted job with a row broken, at any place where it can be.
//! What is broken may hide another row, or be hidden by one; what is returned is for the calls to say.

use crate::bytes::{fault_bytes, line_record, LentJob};
use crate::program::AREA_LEN;
use crate::random::Random;
use crate::refusals::{read_circuit, work_needed};

/// Breaks one row; rows 12 to 14 by k and the lengths of the areas.
pub fn break_row(job: &mut LentJob, row: usize, random: &mut Random) {
    match row {
        1 => break_circuit_length(&mut job.circuit, random),
        2..=5 => break_record(&mut job.circuit, row, random),
        6 => break_counts(&mut job.circuit, random),
        7 => break_test_length(job, random),
        8 => break_byte(&mut job.test, random),
        9 => break_length(&mut job.faults, 4, random),
        10 => break_fault(job, random),
        11 if random.percent(30) => job.plan.resize(4 * random.pick(&[4097, 4098, 5000, 16_384]), 0),
        11 => break_length(&mut job.plan, 4, random),
        12 => job.k = random.pick(&[13, 14, 255, 256, 65_535]),
        13 => job.work_len = job.work_len.saturating_sub(random.pick(&[1, 1, 4, 100])),
        _ => job.result_len = job.result_len.saturating_sub(random.pick(&[1, 1, 2, 16])),
    }
}

/// Some bytes more or fewer, so that the length is no multiple of the record's.
fn break_length(bytes: &mut Vec<u8>, record: usize, random: &mut Random) {
    let off = random.between(1, record - 1);
    let more = bytes.is_empty() || random.percent(50);
    let length = if more { bytes.len() + off } else { bytes.len().saturating_sub(off) };
    bytes.resize(length, random.pick(&[0, 1, 255]));
}

fn break_circuit_length(circuit: &mut Vec<u8>, random: &mut Random) {
    match random.below(10) {
        0 => circuit.clear(),
        1 => grow_to(circuit, random.pick(&[4097, 4098, 5461])),
        2 => circuit.resize(AREA_LEN, 0),
        _ => break_length(circuit, 12, random),
    }
}

/// Buffers of line 0 up to so many lines.
fn grow_to(circuit: &mut Vec<u8>, lines: usize) {
    while circuit.len() < 12 * lines {
        circuit.extend(line_record(2, 0, &[0]));
    }
}

/// Rows 2 to 5 in any record.
fn break_record(circuit: &mut [u8], row: usize, random: &mut Random) {
    let lines = circuit.len() / 12;
    let line = random.below(lines.max(1));
    let Some(record) = circuit.chunks_exact_mut(12).nth(line) else {
        return;
    };
    let (kind, pin_count) = (record[0], record[1] as usize);
    match row {
        2 => record[0] = random.pick(&[10, 11, 128, 255]),
        3 => record[1] = wrong_pin_count(kind, random),
        4 => match random.below(4) {
            0 => record[2] = random.pick(&[2, 3, 255]),
            1 => record[3] = random.pick(&[1, 2, 255]),
            _ if pin_count < 4 => record[random.between(4 + 2 * pin_count, 11)] = random.pick(&[1, 128]),
            _ => record[2] = 2,
        },
        _ if pin_count == 0 || pin_count > 4 => record[0] = 1,
        _ => {
            let nameable = if kind == 1 { lines } else { line };
            let named = random.pick(&[nameable, lines, nameable + 1, 65_535, 256 + lines]) as u16;
            let pin = random.below(pin_count);
            record[4 + 2 * pin..][..2].copy_from_slice(&named.to_le_bytes());
        }
    }
}

fn wrong_pin_count(kind: u8, random: &mut Random) -> u8 {
    match kind {
        0 => random.pick(&[1, 2, 255]),
        1..=3 => random.pick(&[0, 2, 4, 255]),
        _ => random.pick(&[0, 1, 5, 255]),
    }
}

/// Row 6: no input, no output, or 257 of one sort.
fn break_counts(circuit: &mut Vec<u8>, random: &mut Random) {
    let of_line_0 = [line_record(0, 0, &[]), line_record(1, 0, &[0]), line_record(2, 1, &[0])];
    match random.below(5) {
        0 => circuit.chunks_exact_mut(12).for_each(|record| record[2] = 0),
        1 => {
            let inputs = circuit.chunks_exact_mut(12).filter(|record| record[0] == 0);
            inputs.for_each(|record| (record[0], record[1]) = (1, 1));
        }
        sort => circuit.extend(of_line_0[sort - 2].repeat(257)),
    }
}

/// Row 7: no byte, a byte more or fewer, or the test again and again for more than 1,024 units.
fn break_test_length(job: &mut LentJob, random: &mut Random) {
    let inputs = job.circuit.chunks(12).filter(|record| record[0] == 0).count();
    match random.below(4) {
        0 => job.test.clear(),
        1 => job.test.push(0),
        2 if inputs < 60 => {
            let units = random.pick(&[1025, 1026, 1080]);
            job.test = job.test.iter().copied().cycle().take(units * inputs).collect();
        }
        _ => drop(job.test.pop()),
    }
}

fn break_byte(test: &mut [u8], random: &mut Random) {
    if !test.is_empty() {
        test[random.below(test.len())] = random.pick(&[2, 3, 128, 255]);
    }
}

/// Row 10 in any record.
fn break_fault(job: &mut LentJob, random: &mut Random) {
    if job.faults.len() < 4 {
        job.faults = fault_bytes(&[(0, 0, 0)]);
    }
    let lines = job.circuit.len() / 12;
    let position = random.below(job.faults.len() / 4);
    let fault = &mut job.faults[4 * position..][..4];
    match random.below(3) {
        0 => fault[..2].copy_from_slice(&(random.pick(&[lines, lines + 1, 65_535]) as u16).to_le_bytes()),
        1 => fault[2] = random.pick(&[4, 5, 255, fault[2] + 1]),
        _ => fault[3] = random.pick(&[2, 3, 255]),
    }
}

/// Lengthens the job until row 13 asks for as many bytes as the program lends, and mostly for more.
pub fn fill_work_area(job: &mut LentJob, random: &mut Random) {
    let needed = |circuit: &[u8], time_units| read_circuit(circuit).map(|circuit| work_needed(&circuit, time_units));
    while needed(&job.circuit, 1024).is_ok_and(|bytes| bytes < AREA_LEN) {
        job.circuit.extend(line_record(1, 0, &[0]));
    }
    let Ok(circuit) = read_circuit(&job.circuit) else {
        return;
    };
    let time_units = (1..1024).rev().find(|&units| work_needed(&circuit, units) <= AREA_LEN).unwrap_or(1);
    job.test = job.test.iter().copied().cycle().take(time_units * circuit.inputs.len()).collect();
    job.faults.truncate(8);
    let lines_more = AREA_LEN.saturating_sub(work_needed(&circuit, time_units)) / 4;
    let over = if random.percent(15) { 0 } else { random.pick(&[1, 1, 2, 50]) };
    grow_to(&mut job.circuit, circuit.line_count + lines_more + over);
}

/// Repeats the faults until the records fill the program's result area, or are more.
pub fn fill_result_area(job: &mut LentJob, random: &mut Random) {
    if job.faults.is_empty() {
        job.faults = fault_bytes(&[(0, 0, 1)]);
    }
    let faults = random.pick(&[4096, 4097, 4098, 5000, 16_384]);
    job.faults = job.faults.iter().copied().cycle().take(4 * faults).collect();
}

#[cfg(test)]
mod tests {
    use super::*;
    use crate::mixture;
    use crate::program;
    use std::collections::HashSet;

    #[test]
    fn every_row_is_met_at_several_places() {
        let mut random = Random(1);
        for row in 1..=14 {
            let mut positions = HashSet::new();
            let mut refused = 0;
            for _ in 0..100 {
                let mut job = mixture::job(6, &mut random);
                break_row(&mut job, row, &mut random);
                if let Some((_, position)) = job.records().err().filter(|&(number, _)| number as usize == row) {
                    refused += 1;
                    positions.insert(position);
                }
            }
            let has_positions = [2, 3, 4, 5, 8, 10].contains(&row);
            assert!(refused > 40 && (!has_positions || positions.len() > 4), "row {row}: {refused}, {positions:?}");
        }
    }

    #[test]
    fn areas_are_filled_and_more() {
        let mut random = Random(2);
        for (fill, refusal) in
            [(fill_work_area as fn(&mut _, &mut _), "refused 13 0\n"), (fill_result_area, "refused 14 0\n")]
        {
            let mut refused = 0;
            for _ in 0..40 {
                let mut job = mixture::job(6, &mut random);
                fill(&mut job, &mut random);
                refused += (program::print([&job.circuit, &job.test, &job.faults, &job.plan]) == refusal) as usize;
            }
            assert!((20..40).contains(&refused), "{refused} times {refusal}");
        }
    }
}
