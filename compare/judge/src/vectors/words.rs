//! Counts around whole words: state bits unknown at one unit, sequences of taken pairs, starting states.

use crate::bytes::{fault_bytes, plan_bytes, Builder, LentJob};
use crate::hidden::show_both_ways;
use crate::jobs::{job, Shape};
use crate::random::Random;
use crate::search::{distinct_records, faults_with, trials, with_faults, with_more_faults, Place};

pub fn jobs() -> Vec<LentJob> {
    let mut random = Random(5);
    let mut jobs = Vec::new();
    // So many flip-flops, all unknown at some unit from 1 on.
    for flip_flops in [1, 31, 32, 33, 63, 64, 65, 256] {
        jobs.push(ladder(flip_flops, &mut random));
        jobs.push(all_bits_tried(flip_flops, 7, &mut random));
        if flip_flops < 100 {
            jobs.push(all_bits_tried(flip_flops, random.pick(&[2, 3]), &mut random));
        }
    }
    // No taken pair to twelve, so one sequence to 4,096: plans of one length after another, then one k after another.
    let (many_ways, taken) = sequences_that_end_in_all_ways(12, &mut random);
    jobs.extend((0..=12).map(|m| LentJob { plan: plan_bytes(&with_nonsense(&taken[..m])), ..many_ways.clone() }));
    let (many_ways, _) = sequences_that_end_in_all_ways(14, &mut random);
    jobs.extend((0..=12).map(|k| LentJob { k, ..many_ways.clone() }));
    // Verdict 3 after many sequences.
    jobs.extend((7..=11).map(|m| no_sequence_survives(m, &mut random)));
    // Starting states of which one alone never differs.
    for (flip_flops, start) in [(6, 63), (7, 64), (7, 65), (7, 127), (8, 128), (8, 200), (10, 1000), (12, 4095)] {
        jobs.push(only_start(flip_flops, start));
    }
    for flip_flops in 7..=12 {
        jobs.push(random_start(flip_flops, 6, &mut random));
        jobs.push(random_start(flip_flops, 4, &mut random));
    }
    jobs
}

/// Flip-flops around the ends of words, each with an input that, stuck at 0, shows it one way or both ways.
fn ladder(flip_flops: usize, random: &mut Random) -> LentJob {
    let mut builder = Builder::default();
    let lines: Vec<usize> = (0..flip_flops).map(|_| builder.add(1, 0, &[])).collect();
    let ends = [0, 1, 30, 31, 32, 33, 62, 63, 64, 95, 96, 127, 128, 254, 255];
    let shown: Vec<usize> = ends.into_iter().filter(|&end| end < flip_flops).collect();
    for (i, &line) in lines.iter().enumerate() {
        let feeds_itself = shown.contains(&i) || random.percent(60);
        builder.set_pin(line, if feeds_itself { line } else { random.pick(&lines) });
    }
    let mut faults = Vec::new();
    for (position, &i) in shown.iter().enumerate() {
        let mask = builder.add(0, 0, &[]);
        faults.push((mask, 0, 0));
        if position % 3 == 1 {
            builder.add(6, 1, &[mask, lines[i]]);
        } else {
            show_both_ways(&mut builder, mask, lines[i]);
        }
    }
    // Two at once: the lower is named.
    let both = builder.add(0, 0, &[]);
    faults.push((both, 0, 0));
    for &i in [shown[shown.len() - 1], shown[shown.len() / 2]].iter() {
        show_both_ways(&mut builder, both, lines[i]);
    }
    let inputs = shown.len() + 1;
    let plan = plan_bytes(&[(1, 0), (0, flip_flops - 1), (2, flip_flops / 2), (1, 1)]);
    LentJob::new(builder.bytes(), vec![1; 3 * inputs], fault_bytes(&faults), plan, 3)
}

/// A random circuit and a fault of this verdict, or 6 for 7, under which stage 3 tries every flip-flop at one unit and
/// stage 4 writes; other faults follow.
fn all_bits_tried(flip_flops: usize, verdict: u16, random: &mut Random) -> LentJob {
    let most_pairs = if flip_flops == 1 { 1 } else { 3 };
    loop {
        let gates = flip_flops.min(100) + 15;
        let (self_feeding, flip_flop_pins) = (random.pick(&[30, 60, 90]), 60);
        let shape =
            Shape { flip_flops, gates, self_feeding, flip_flop_pins, input_pins: 3, watches: 8, ..Shape::SMALL };
        let found = job(shape, random.between(3, 4), 1, 4, random.next());
        let mask = found.circuit.len() / 12 - 9;
        let first = with_faults(&found, &[(mask, 0, 0)]);
        let record = first.records().expect("the job is accepted")[0];
        let (most_bits, one_marked) = trials(&first);
        let as_wanted = record[0] == verdict || verdict == 7 && record[0] == 6;
        if as_wanted && most_bits == flip_flops && (one_marked >= most_pairs || verdict == 2) {
            return with_more_faults(&found, &[(mask, 0, 0)], 8, random);
        }
    }
}

/// A job with a dozen taken pairs whose sequences differ, clash and survive, and not word by word alike.
fn sequences_that_end_in_all_ways(flip_flops: usize, random: &mut Random) -> (LentJob, Vec<(usize, usize)>) {
    loop {
        let shape = Shape { flip_flops, gates: 28, self_feeding: 30, watches: 4, ..Shape::SMALL };
        let found = job(shape, 5, 1, 12, random.next());
        let pairs: Vec<_> = (0..60).map(|_| (random.below(5), random.below(flip_flops))).collect();
        let found = LentJob { plan: plan_bytes(&pairs), ..found };
        let all_ways = |record: &[u16; 9]| record[1] == 12 && record[4..7].iter().all(|&count| count > 20);
        let records = distinct_records(&found, all_ways);
        if records.len() >= 2 && records.iter().any(|(_, record)| record[6] % 64 != 0) {
            let faults: Vec<Place> = records.iter().map(|&(fault, _)| fault).take(4).collect();
            let taken = taken_pairs(&with_faults(&found, &faults[..1]), &pairs);
            return (with_faults(&found, &faults), taken);
        }
    }
}

/// The pairs that the job's first fault takes: those with which m grows.
fn taken_pairs(job: &LentJob, pairs: &[(usize, usize)]) -> Vec<(usize, usize)> {
    let mut taken = Vec::new();
    for &pair in pairs {
        taken.push(pair);
        let job = LentJob { plan: plan_bytes(&taken), ..job.clone() };
        let m = job.records().expect("the job is accepted")[0][1] as usize;
        taken.truncate(m);
    }
    taken
}

/// The pairs with repeats and pairs that name nothing between them.
fn with_nonsense(pairs: &[(usize, usize)]) -> Vec<(usize, usize)> {
    pairs.iter().flat_map(|&(u, i)| [(u + 100, i), (u, i), (u, i + 100)]).collect()
}

/// A job of verdict 3 with m taken pairs, some sequences differing and some clashing.
fn no_sequence_survives(m: usize, random: &mut Random) -> LentJob {
    loop {
        let shape = Shape { flip_flops: m + 1, gates: 20, self_feeding: 25, watches: 5, ..Shape::SMALL };
        let time_units = random.between(4, 6);
        let found = job(shape, time_units, 1, m, random.next());
        let pairs: Vec<_> = (0..80).map(|_| (random.below(time_units), random.below(m + 1))).collect();
        let found = LentJob { plan: plan_bytes(&pairs), ..found };
        let ends = |record: &[u16; 9]| record[0] == 3 && record[1] as usize == m && record[5] > 0;
        let faults = faults_with(&found, ends);
        if !faults.is_empty() {
            return with_faults(&found, &faults[..faults.len().min(3)]);
        }
    }
}

/// A job in which every starting state but one differs.
fn only_start(flip_flops: usize, start: usize) -> LentJob {
    let mut builder = Builder::default();
    let mask = builder.add(0, 0, &[]);
    let lines: Vec<usize> = (0..flip_flops).map(|_| builder.add(1, 0, &[])).collect();
    for (i, &line) in lines.iter().enumerate() {
        builder.set_pin(line, line);
        let shown = if start >> i & 1 == 1 { line } else { builder.add(3, 0, &[line]) };
        builder.add(6, 1, &[mask, shown]);
    }
    let test = if start % 2 == 1 { vec![1] } else { vec![1, 0, 1] };
    LentJob::new(builder.bytes(), test, fault_bytes(&[(mask, 0, 0)]), vec![], 12)
}

/// A random job with faults of this verdict, of which verdict 6 has a start above 64; others follow.
fn random_start(flip_flops: usize, verdict: u16, random: &mut Random) -> LentJob {
    loop {
        let shape = Shape { flip_flops, gates: 24, flip_flop_pins: 45, parity_gates: 30, watches: 6, ..Shape::SMALL };
        let found = job(shape, random.between(2, 5), 1, 12, random.next());
        let wanted = |record: &[u16; 9]| record[0] == verdict && (verdict != 6 || record[7] > 64);
        let faults = faults_with(&found, wanted);
        if !faults.is_empty() {
            return with_more_faults(&found, &faults[..faults.len().min(4)], 4, random);
        }
    }
}
