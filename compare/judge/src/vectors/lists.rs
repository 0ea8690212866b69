//! Fault lists: empty, with repeats, and of lengths around whole words of 64 faults, with all verdicts mixed.

use crate::bytes::{plan_bytes, Builder, LentJob};
use crate::hidden::show_both_ways;
use crate::jobs::{job, Shape};
use crate::random::Random;
use crate::search::{faults_of_all_verdicts, faults_with, verdicts, with_faults, with_more_faults, Place};

/// Five inputs and seven flip-flops in blocks that give every verdict, 7 where k is below 7.
fn blocks() -> Vec<u8> {
    let mut builder = Builder::default();
    let inputs: Vec<usize> = (0..5).map(|_| builder.add(0, 0, &[])).collect();
    // A flip-flop that an input resets, and that toggles without it.
    let toggling = builder.add(1, 1, &[]);
    let inverse = builder.add(3, 0, &[toggling]);
    let reset = builder.add(4, 0, &[inputs[0], inverse]);
    builder.set_pin(toggling, reset);
    // One that an input resets, and that holds without it.
    let holding = builder.add(1, 1, &[]);
    let reset = builder.add(4, 0, &[inputs[1], holding]);
    builder.set_pin(holding, reset);
    // One shown both ways, and two of which only the parity is.
    let shown = builder.add(1, 0, &[]);
    builder.set_pin(shown, shown);
    show_both_ways(&mut builder, inputs[2], shown);
    let pair = [builder.add(1, 0, &[]), builder.add(1, 0, &[])];
    pair.iter().for_each(|&line| builder.set_pin(line, line));
    let parity = builder.add(8, 0, &pair);
    show_both_ways(&mut builder, inputs[3], parity);
    // Two in a row behind an input.
    let first = builder.add(1, 0, &[inputs[4]]);
    let second = builder.add(1, 0, &[first]);
    builder.add(5, 1, &[first, second]);
    builder.bytes()
}

/// The blocks under a test that holds every reset and mask.
fn block_job(k: usize) -> LentJob {
    let test = [1, 0, 1, 1, 0].iter().flat_map(|&last| [0, 0, 1, 1, last]).collect();
    let plan = plan_bytes(&[(0, 0), (1, 1), (2, 6), (1, 1), (9, 9), (2, 4), (1, 0), (0, 1)]);
    LentJob::new(blocks(), test, vec![], plan, k)
}

pub fn jobs() -> Vec<LentJob> {
    let mut random = Random(4);
    let mut jobs = vec![block_job(6), LentJob { result_len: 5, ..block_job(12) }, repeats()];
    for (count, k) in [63, 64, 65, 127, 128, 129, 200].into_iter().zip([7, 6, 12, 7, 0, 8, 10]) {
        jobs.push(faults_of_all_verdicts(&block_job(k), count, &mut random));
        let job = random_circuit(&mut random);
        let job = faults_of_all_verdicts(&job, count, &mut random);
        jobs.push(LentJob { result_len: job.result_len + random.below(30), ..job });
    }
    jobs.push(words_of_one_verdict(&mut random));
    jobs.extend([(31, 70), (32, 130), (33, 65), (60, 200)].map(|(units, count)| long_test(units, count, &mut random)));
    jobs
}

/// The same faults again and again: equal records.
fn repeats() -> LentJob {
    let job = block_job(7);
    let mut faults: Vec<Place> = Vec::new();
    for verdict in 1..=6 {
        let mut two = faults_with(&job, |record| record[0] == verdict);
        two.truncate(2);
        faults.extend(two.repeat(3));
    }
    faults.extend(faults.clone());
    with_faults(&job, &faults)
}

/// A circuit whose faults get at least five verdicts.
fn random_circuit(random: &mut Random) -> LentJob {
    loop {
        let flip_flops = random.between(5, 8);
        let shape = Shape { flip_flops, gates: random.between(15, 30), watches: 5, ..Shape::SMALL };
        let k = random.pick(&[4, 8, 9, 12]);
        let job = job(shape, random.between(3, 6), 1, k, random.next());
        if verdicts(&job) >= 5 {
            return job;
        }
    }
}

/// 64 faults of verdict 1, then 64 of verdict 5, then 72 mixed.
fn words_of_one_verdict(random: &mut Random) -> LentJob {
    let job = block_job(7);
    let mut faults: Vec<Place> = Vec::new();
    for verdict in [1, 5] {
        let with_verdict = faults_with(&job, |record| record[0] == verdict);
        faults.extend((0..64).map(|_| random.pick(&with_verdict)));
    }
    with_more_faults(&job, &faults, 72, random)
}

/// So many faults over so many time units: some of them show themselves in the first units, some later, some not.
fn long_test(time_units: usize, count: usize, random: &mut Random) -> LentJob {
    loop {
        let shape =
            Shape { flip_flops: random.between(5, 8), gates: random.between(15, 30), watches: 5, ..Shape::SMALL };
        let job = faults_of_all_verdicts(&job(shape, time_units, 1, 6, random.next()), count, random);
        let records = job.records().expect("the job is accepted");
        let shown =
            |times: std::ops::Range<u16>| records.iter().any(|record| record[0] == 1 && times.contains(&record[2]));
        if shown(0..8) && shown(8..1024) && records.iter().any(|record| record[0] > 5) {
            return job;
        }
    }
}
