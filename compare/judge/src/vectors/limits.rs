//! The limits: k, the length of the plan, time units, lines, inputs, flip-flops and outputs.

use crate::bytes::{fault_bytes, line_record, plan_bytes, Builder, LentJob};
use crate::hidden::show_both_ways;
use crate::jobs::{job, Shape};
use crate::random::Random;
use crate::search::{faults_of_all_verdicts, faults_with, verdicts, with_faults, with_more_faults};

pub fn jobs() -> Vec<LentJob> {
    let mut random = Random(6);
    let mut jobs = Vec::new();
    // k where it matters: eight flip-flops and more than twelve pairs to take.
    let many_pairs = twelve_taken(&mut random);
    jobs.extend([0, 1, 6, 7, 8, 12, 13, 256, 65_536].map(|k| LentJob { k, ..many_pairs.clone() }));
    // 4,096 plan pairs, and 4,097.
    jobs.extend(long_plans(&many_pairs, &mut random));
    // One time unit, 1,024 and 1,025.
    jobs.extend((0..4).map(|_| random_job(4, 1, &mut random)));
    jobs.extend(late_job(1024));
    jobs.extend(late_job(1025).into_iter().take(1));
    jobs.push(random_job(5, 1024, &mut random));
    // No flip-flop.
    jobs.extend([1, 5].map(|time_units| random_job(0, time_units, &mut random)));
    // 256 inputs, flip-flops and outputs.
    let inputs = Shape { inputs: 256, watches: 0, ..Shape::SMALL };
    let flip_flops = Shape { flip_flops: 256, gates: 30, self_feeding: 40, ..Shape::SMALL };
    let outputs = Shape { gates: 300, outputs: 250, watches: 6, ..Shape::SMALL };
    for shape in [inputs, flip_flops, outputs] {
        let wide = job(shape, 3, 1, 5, random.next());
        jobs.push(faults_of_all_verdicts(&wide, 12, &mut random));
    }
    // 4,096 lines, and 4,097.
    let large = [7, 2].map(|verdict| large_job(verdict, &mut random));
    let mut too_large = large[0].clone();
    too_large.circuit.extend(line_record(2, 0, &[0]));
    jobs.extend(large);
    jobs.push(too_large);
    jobs
}

/// A job whose faults take twelve pairs at k = 12 and then reach stage 6.
fn twelve_taken(random: &mut Random) -> LentJob {
    loop {
        let shape = Shape { flip_flops: 8, gates: 20, self_feeding: 40, watches: 4, ..Shape::SMALL };
        let found = job(shape, 5, 1, 12, random.next());
        let pairs: Vec<_> = (0..50).map(|_| (random.below(5), random.below(8))).collect();
        let found = LentJob { plan: plan_bytes(&pairs), ..found };
        let faults = faults_with(&found, |record| record[1] == 12 && record[5] > 0 && record[6] > 0);
        if faults.len() > 1 {
            return with_more_faults(&found, &faults[..faults.len().min(4)], 5, random);
        }
    }
}

/// Plans of mostly nonsense and repeats, with the pairs that name something far apart.
fn long_plans(job: &LentJob, random: &mut Random) -> [LentJob; 2] {
    let sense = job.plan.chunks_exact(4).map(|pair| (pair[0] as usize, pair[2] as usize));
    let sense: Vec<(usize, usize)> = sense.collect();
    let mut pairs = Vec::new();
    for position in 0..4096 {
        let shown = position * sense.len() / 4096;
        let nonsense = [(5, 0), (0, 8), (65_535, 65_535), (random.below(65_536), 8), (1024, random.below(8))];
        let repeats = sense[random.below(shown + 1)];
        pairs.push(if random.percent(20) { repeats } else { random.pick(&nonsense) });
    }
    let longest = LentJob { plan: plan_bytes(&pairs), ..job.clone() };
    pairs.push((0, 0));
    [longest, LentJob { plan: plan_bytes(&pairs), ..job.clone() }]
}

fn random_job(flip_flops: usize, time_units: usize, random: &mut Random) -> LentJob {
    loop {
        let shape = Shape { flip_flops, gates: 14, self_feeding: 50, watches: 3, ..Shape::SMALL };
        let found = job(shape, time_units, 1, random.pick(&[3, 12]), random.next());
        if verdicts(&found) >= if flip_flops == 0 { 2 } else { 3 } {
            return faults_of_all_verdicts(&found, 10, random);
        }
    }
}

/// Faults that show at the last units only: an input that is 1 at unit 1,023, and masks that are 1 at unit 700.
fn late_job(time_units: usize) -> [LentJob; 2] {
    let mut builder = Builder::default();
    let inputs: Vec<usize> = (0..3).map(|_| builder.add(0, 0, &[])).collect();
    let (shown, held) = (builder.add(1, 0, &[]), builder.add(1, 0, &[]));
    builder.set_pin(shown, shown);
    builder.set_pin(held, held);
    show_both_ways(&mut builder, inputs[0], shown);
    builder.add(6, 1, &[inputs[1], held]);
    let last = builder.add(2, 1, &[inputs[2]]);
    let unit = |u: usize| [(u == 700) as u8, (u == 700) as u8, (u == 1023) as u8];
    let test: Vec<u8> = (0..time_units).flat_map(unit).collect();
    let faults = [(0, 0, 0), (1, 0, 0), (2, 0, 0), (2, 0, 1), (last, 1, 0), (held, 0, 0), (held, 1, 0), (shown, 1, 1)];
    let plan = plan_bytes(&[(1023, 1), (700, 1), (701, 1), (0, 1), (300, 0), (0, 0)]);
    [1, 12].map(|k| LentJob::new(builder.bytes(), test.clone(), fault_bytes(&faults), plan.clone(), k))
}

/// 4,096 lines, with a fault of this verdict first and then faults of several verdicts.
fn large_job(verdict: u16, random: &mut Random) -> LentJob {
    loop {
        let shape = Shape { inputs: 30, flip_flops: 40, gates: 4013, outputs: 12, watches: 12, ..Shape::SMALL };
        let found = job(shape, 5, 1, 4, random.next());
        let mask = 4096 - 13;
        let record = with_faults(&found, &[(mask, 0, 0)]).records().expect("the job is accepted")[0];
        if record[0] == verdict {
            return with_more_faults(&found, &[(mask, 0, 0), (4090, 1, 0)], 10, random);
        }
    }
}
