//! The call Grade: refuses a job or writes one record of 16 bytes per fault.

use crate::refusals::{read_for_grade, Refusal};
use crate::stages::{Record, Stages};

/// The number of records written, or number and position of a refusal.
pub fn grade(
    circuit: &[u8],
    test: &[u8],
    faults: &[u8],
    plan: &[u8],
    k: usize,
    work_len: usize,
    result: &mut [u8],
) -> Result<usize, Refusal> {
    let job = read_for_grade(circuit, test, faults, plan, k, work_len, result.len())?;
    let mut stages = Stages::new(&job);
    for (&fault, area) in job.faults.iter().zip(result.chunks_exact_mut(16)) {
        write(stages.grade(fault), area);
    }
    Ok(job.faults.len())
}

/// Verdict, m, then 16-bit time, line, differing, clashing, surviving, start, and 0.
fn write(record: Record, area: &mut [u8]) {
    let Record { time, line, differing, clashing, surviving, start, .. } = record;
    area[0] = record.verdict;
    area[1] = record.m;
    let fields = [time, line, differing, clashing, surviving, start, 0];
    for (place, field) in area[2..].chunks_exact_mut(2).zip(fields) {
        place.copy_from_slice(&field.to_le_bytes());
    }
}
