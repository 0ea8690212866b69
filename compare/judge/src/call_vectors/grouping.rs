//! Calls of Group.

use crate::bytes::LentJob;
use crate::calls::{Call, Kind};
use crate::random::Random;

/// No record; records that differ in one byte that is looked at; many of few sorts; lengths and areas refused.
pub fn calls(random: &mut Random) -> Vec<Call> {
    let mut calls = vec![group_call(vec![], 0), group_call(vec![], 3)];
    let near = [
        (1, [0, 0], [0, 0]),
        (2, [0, 0], [0, 0]),
        (1, [1, 0], [0, 0]),
        (1, [0, 1], [0, 0]),
        (1, [0, 0], [1, 0]),
        (1, [0, 0], [0, 1]),
    ];
    for other in near {
        let sorts = [near[0], other, near[0], other];
        let verdicts: Vec<u8> =
            sorts.iter().flat_map(|&(verdict, time, line)| record(verdict, time, line, random)).collect();
        calls.push(group_call(verdicts, 8 + random.below(3)));
    }
    for records in [1, 2, 3, 30, 60] {
        let one = |random: &mut Random| {
            let (verdict, time, line) = random.pick(&near);
            record(verdict, time, line, random)
        };
        let verdicts: Vec<u8> = (0..records).flat_map(|_| one(random)).collect();
        let lengths = [2 * records, 2 * records + 1, 2 * records - 1, 0];
        calls.extend(lengths.map(|result_len| group_call(verdicts.clone(), result_len)));
        let cut = verdicts.len() - random.between(1, 15);
        calls.extend([2 * records, 0].map(|result_len| group_call(verdicts[..cut].to_vec(), result_len)));
    }
    calls
}

/// A record with these bytes for verdict, time and line, and any others.
fn record(verdict: u8, time: [u8; 2], line: [u8; 2], random: &mut Random) -> [u8; 16] {
    let mut record = [0; 16].map(|_: u8| random.below(256) as u8);
    record[0] = verdict;
    record[2..4].copy_from_slice(&time);
    record[4..6].copy_from_slice(&line);
    record
}

fn group_call(verdicts: Vec<u8>, result_len: usize) -> Call {
    Call { kind: Kind::Group, job: LentJob { result_len, ..LentJob::default() }, verdicts }
}
