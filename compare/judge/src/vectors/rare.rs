//! Both ways to verdict 2: a pair with both values marked, and a write against an opposite value.

use crate::bytes::{plan_bytes, LentJob};
use crate::hidden;
use crate::jobs::{self, Shape};
use crate::random::Random;
use crate::search::{faults_with, implied, with_faults, with_more_faults};

/// How stages 3 and 4 of a fault end.
#[derive(Clone, Copy, PartialEq)]
enum Ending {
    BothMarked,
    OppositeWriteAtFirstUnit,
    OppositeWriteLater,
    /// Both values marked at a later unit than an opposite write.
    BothMarkedAfterWrite,
    /// Both values marked in the same unit as an opposite write that comes before.
    BothMarkedBesideWrite,
    Neither,
}

fn ending(job: &LentJob) -> Ending {
    let implied = implied(job).unwrap_or_default();
    match (implied.both_marked, implied.opposite_write) {
        (Some(_), None) => Ending::BothMarked,
        (None, Some((1, _))) => Ending::OppositeWriteAtFirstUnit,
        (None, Some(_)) => Ending::OppositeWriteLater,
        (Some(marked), Some(written)) if marked.0 > written.0 => Ending::BothMarkedAfterWrite,
        (Some(_), Some(_)) => Ending::BothMarkedBesideWrite,
        (None, None) => Ending::Neither,
    }
}

/// Jobs of each ending, then random ones with both values marked.
pub fn jobs() -> Vec<LentJob> {
    let mut wanted = [
        (Ending::BothMarked, 4),
        (Ending::OppositeWriteAtFirstUnit, 8),
        (Ending::OppositeWriteLater, 6),
        (Ending::BothMarkedAfterWrite, 4),
        (Ending::BothMarkedBesideWrite, 3),
        (Ending::Neither, 3),
    ];
    let mut jobs = Vec::new();
    let mut random = Random(3);
    for seed in 0.. {
        if wanted.iter().all(|&(_, count)| count == 0) {
            break;
        }
        let job = hidden::job(seed);
        let ending = ending(&job);
        if let Some(place) = wanted.iter_mut().find(|(wanted, count)| *wanted == ending && *count > 0) {
            place.1 -= 1;
            jobs.push(with_plan(&job, &mut random));
        }
    }
    jobs.extend(both_marked(&mut random));
    // The two writing flip-flops and the one written, by index, in one word of 32 or in several.
    for [bit, first, second] in [[5, 10, 40], [50, 3, 36], [33, 31, 32], [0, 65, 64], [66, 63, 0]] {
        jobs.extend([None, Some(0), Some(1)].map(|both_marked_at| hidden::spread(bit, first, second, both_marked_at)));
    }
    jobs
}

/// The job's own fault first, then others, and a plan.
fn with_plan(job: &LentJob, random: &mut Random) -> LentJob {
    let pairs: Vec<_> = (0..6).map(|_| (random.below(4), random.below(5))).collect();
    let job = LentJob { plan: plan_bytes(&pairs), ..job.clone() };
    with_more_faults(&job, &[hidden::FAULT], 5, random)
}

/// Random circuits with faults that stage 3 ends.
fn both_marked(random: &mut Random) -> Vec<LentJob> {
    let mut found = Vec::new();
    while found.len() < 8 {
        let shape =
            Shape { flip_flops: random.between(2, 8), gates: random.between(6, 24), watches: 5, ..Shape::SMALL };
        let job = jobs::job(shape, random.between(3, 7), 1, 4, random.next());
        let late = faults_with(&job, |record| record[0] == 2 && record[2] > 1);
        if late.len() > 1 {
            found.push(with_faults(&job, &late));
        }
    }
    found
}
