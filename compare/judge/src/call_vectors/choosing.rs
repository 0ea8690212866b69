//! Calls of Choose, each that writes pairs followed by Grade with those pairs as the plan.

use super::{is_small, small_call, with_longer_areas};
use crate::bytes::{fault_bytes, LentJob};
use crate::calls::{Call, Kind};
use crate::choose::{choices, decided};
use crate::mixture;
use crate::random::Random;

pub fn calls(random: &mut Random) -> Vec<Call> {
    let mut calls = Vec::new();
    // Pairs that each place in the rank decides.
    for place in 0..6 {
        calls.extend((0..7).map(|_| wanted(random, |job| decided(job)[place] > 0)));
    }
    // As many pairs as k with others left over, fewer than k, and k = 0.
    let with_k = |job: &LentJob, k: usize| choices(&LentJob { k, ..job.clone() }).len();
    calls.extend((0..5).map(|_| wanted(random, |job| job.k < 12 && with_k(job, job.k + 1) > job.k)));
    calls.extend((0..5).map(|_| wanted(random, |job| (1..job.k).contains(&with_k(job, job.k)))));
    calls.extend((0..3).map(|_| wanted(random, |job| job.k == 0)));
    // The verdicts for which no pair is written.
    for verdict in [1, 2, 5] {
        calls.extend((0..3).map(|_| of_verdict(verdict, random)));
    }
    calls.into_iter().flat_map(followed_by_grade).collect()
}

/// A small call whose job is as wanted.
fn wanted(random: &mut Random, is_wanted: impl Fn(&LentJob) -> bool) -> Call {
    loop {
        let mut call = small_call(Kind::Choose, random);
        call.job.plan = vec![255; random.below(4)];
        if is_wanted(&call.job) {
            return with_longer_areas(call, random);
        }
    }
}

/// A small call whose fault gets this verdict.
fn of_verdict(verdict: u16, random: &mut Random) -> Call {
    loop {
        let k = random.between(1, 12);
        let job = mixture::job(k, random);
        if let (true, Some(&fault)) = (is_small(&job), mixture::faults_with_verdict(&job, &[verdict]).first()) {
            let job = LentJob { faults: fault_bytes(&[fault]), result_len: 4 * k, ..job };
            return Call { kind: Kind::Choose, job, verdicts: vec![] };
        }
    }
}

/// The call, then, if it writes pairs, Grade with these as the plan: its record's m shows that each is taken.
fn followed_by_grade(call: Call) -> Vec<Call> {
    let answer = call.answer();
    let pairs = answer.done.expect("the call is accepted");
    if pairs == 0 {
        return vec![call];
    }
    let plan = answer.result[..4 * pairs].to_vec();
    let job = LentJob { plan, result_len: 16, ..call.job.clone() };
    let grade = Call { kind: Kind::Grade, job, verdicts: vec![] };
    assert_eq!(grade.answer().result[1] as usize, pairs, "a pair that Choose writes is passed over");
    vec![call, grade]
}
