//! Random calls: any of the four, at any k, with areas of the lengths asked for, shorter, longer and empty.

use crate::bytes::LentJob;
use crate::calls::{Call, Kind};
use crate::damage::break_row;
use crate::mixture;
use crate::random::Random;

/// The longest area that a test program lends.
pub const LONGEST_AREA: usize = 196_608;

/// A call; one in eight has a row broken in what is lent, or two.
pub fn call(random: &mut Random) -> Call {
    let kinds = [Kind::Simulate, Kind::Grade, Kind::Grade, Kind::Choose, Kind::Choose, Kind::Choose, Kind::Group];
    let kind = random.pick(&kinds);
    let k = random.below(13);
    let of_one_fault = matches!(kind, Kind::Simulate | Kind::Choose) && random.percent(97);
    let job = if of_one_fault { mixture::job_of_one_fault(k, random) } else { mixture::job(k, random) };
    let mut call = Call { kind, job, verdicts: vec![] };
    match kind {
        Kind::Simulate if random.percent(40) => call.job.faults.clear(),
        Kind::Group => call.verdicts = verdicts(&call.job, random),
        _ => (),
    }
    if random.percent(12) {
        (0..random.pick(&[1, 1, 2])).for_each(|_| break_row(&mut call.job, random.between(1, 12), random));
    }
    call.job.result_len = area_len(result_needed(&call), random);
    call.job.work_len = area_len(call.job.work_len, random);
    call
}

/// What row 14 asks for, as far as the call passes the rows before.
pub fn result_needed(call: &Call) -> usize {
    let LentJob { circuit, test, faults, k, .. } = &call.job;
    match call.kind {
        Kind::Simulate => {
            let lines = |wanted: fn(&[u8]) -> bool| circuit.chunks_exact(12).filter(|line| wanted(line)).count();
            let (inputs, outputs) = (lines(|line| line[0] == 0), lines(|line| line[2] == 1));
            test.len() / inputs.max(1) * outputs
        }
        Kind::Grade => 16 * (faults.len() / 4),
        Kind::Choose => 4 * k,
        Kind::Group => 2 * (call.verdicts.len() / 16),
    }
}

/// Mostly enough.
fn area_len(needed: usize, random: &mut Random) -> usize {
    let length = match random.below(100) {
        0..5 => needed.saturating_sub(1),
        5..7 => 0,
        7..9 => random.below(needed + 1),
        9..11 => random.between(needed, needed + 30_000),
        11..50 => needed + random.between(1, 70),
        _ => needed,
    };
    length.min(LONGEST_AREA)
}

/// Records of few sorts, in which the bytes that Group does not look at are any; at times those of a job, or no
/// whole number of records.
fn verdicts(job: &LentJob, random: &mut Random) -> Vec<u8> {
    if random.percent(30) {
        return Call { kind: Kind::Grade, job: job.clone(), verdicts: vec![] }.answer().result;
    }
    let records = if random.percent(2) { 4096 } else { random.pick(&[0, 1, 2, 5, 17, 60, 60, 300]) };
    let mut bytes: Vec<u8> = Vec::new();
    for _ in 0..records {
        let mut record = [0; 16].map(|_: u8| random.below(256) as u8);
        (record[0], record[2], record[3]) = (random.pick(&[1, 1, 2]), random.pick(&[3, 4]), random.pick(&[0, 0, 1]));
        (record[4], record[5]) = (random.pick(&[7, 8]), random.pick(&[0, 0, 1]));
        bytes.extend(record);
    }
    if random.percent(12) {
        bytes.resize(bytes.len() + random.between(1, 15), 0);
    }
    bytes
}
