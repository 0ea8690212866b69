//! Refused calls of Simulate, Grade and Choose: every row that each meets, alone and with another.

use super::small_call;
use crate::calls::{Call, Kind};
use crate::damage::break_row;
use crate::random::Random;
use crate::random_calls::result_needed;

pub fn calls(random: &mut Random) -> Vec<Call> {
    let groups = [
        refused_calls(Kind::Simulate, &[1, 2, 3, 4, 5, 6, 7, 8, 9, 10, 13, 14], random),
        refused_calls(Kind::Grade, &[1, 2, 3, 4, 5, 6, 7, 8, 9, 10, 11, 12, 13, 14], random),
        refused_calls(Kind::Choose, &[1, 2, 3, 4, 5, 6, 7, 8, 9, 10, 12, 13, 14], random),
        wrong_fault_counts(random),
        limits(random),
    ];
    groups.concat()
}

/// For each of these rows a call that breaks it, and one that breaks another with it; at any place.
fn refused_calls(kind: Kind, rows: &[usize], random: &mut Random) -> Vec<Call> {
    let mut calls = Vec::new();
    for &row in rows {
        calls.push(refused_call(kind, &[row], row, random));
        let other = random.pick(rows);
        calls.push(refused_call(kind, &[row, other], row.min(other), random));
    }
    calls
}

/// A call with these rows broken that is refused by this one.
fn refused_call(kind: Kind, broken: &[usize], by: usize, random: &mut Random) -> Call {
    loop {
        let mut call = small_call(kind, random);
        broken.iter().for_each(|&row| break_row(&mut call.job, row, random));
        let inputs = [&call.job.circuit, &call.job.test, &call.job.plan];
        if inputs.iter().all(|input| input.len() < 300)
            && call.answer().done.is_err_and(|(number, _)| number as usize == by)
        {
            return call;
        }
    }
}

/// Two faults lent to Simulate, none and two to Choose: row 9, also where row 10 applies.
fn wrong_fault_counts(random: &mut Random) -> Vec<Call> {
    let mut calls = Vec::new();
    for kind in [Kind::Simulate, Kind::Choose] {
        let call = small_call(kind, random);
        let lists = [vec![], call.job.faults.repeat(2), vec![255; 8]];
        calls.extend(lists.map(|faults| with(&call, |call| call.job.faults = faults.clone())));
    }
    calls
}

/// k at its limit and above; areas of exactly enough bytes, a byte short, and empty.
fn limits(random: &mut Random) -> Vec<Call> {
    let mut calls = Vec::new();
    for kind in [Kind::Simulate, Kind::Grade, Kind::Choose] {
        let mut call = small_call(kind, random);
        (call.job.k, call.job.result_len) = (12, call.job.result_len.max(48));
        calls.extend([12, 13, 65_535].map(|k| with(&call, |call| call.job.k = k)));
        let mut call = small_call(kind, random);
        call.job.k = 2;
        call.job.result_len = result_needed(&call);
        let (work, result) = (call.job.work_len, call.job.result_len);
        let lengths =
            [(work, result), (work - 1, result), (work, result - 1), (work - 1, result - 1), (0, result), (work, 0)];
        calls.extend(lengths.map(|lengths| with(&call, |call| (call.job.work_len, call.job.result_len) = lengths)));
    }
    calls
}

fn with(call: &Call, change: impl Fn(&mut Call)) -> Call {
    let mut call = call.clone();
    change(&mut call);
    call
}
