//! Faults on every sort of place, and small random jobs.

use crate::bytes::{circuit_bytes, fault_bytes, plan_bytes, LentJob, Line};
use crate::jobs::{every_fault, job, Shape};
use crate::random::Random;
use crate::search::{faults_of_all_verdicts, verdicts, with_faults};

/// Outputs that are an input, a flip-flop and gates; flip-flops that feed themselves, take an input and take one
/// line; one line on several pins.
#[rustfmt::skip]
const ODD: &[Line] = &[
    (0, 1, &[]), (1, 1, &[1]), (1, 0, &[0]), (1, 0, &[12]), (1, 0, &[12]), (0, 0, &[]),
    (4, 0, &[1, 1]), (8, 0, &[3, 3, 5]), (6, 1, &[5, 6]), (9, 0, &[2, 2, 2, 1]), (5, 0, &[7, 5, 7]),
    (7, 1, &[5, 4, 4]), (6, 0, &[0, 10, 9]), (3, 0, &[1]), (6, 1, &[5, 13]), (2, 1, &[3]), (4, 1, &[0, 3, 0]),
];

/// The odd circuit and random ones, each with every fault.
pub fn jobs() -> Vec<LentJob> {
    let circuit = circuit_bytes(ODD);
    let faults = fault_bytes(&every_fault(&circuit));
    let mut jobs = Vec::new();
    let plan = plan_bytes(&[(0, 0), (1, 2), (1, 3), (0, 3), (2, 0), (2, 2)]);
    let tests: [&[u8]; 3] = [&[1, 1], &[0, 1, 1, 1, 0, 0, 1, 1], &[1, 1, 1, 1, 0, 1, 0, 0, 1, 0, 1, 1]];
    for (test, k) in tests.into_iter().zip([6, 4, 3]) {
        jobs.push(LentJob::new(circuit.clone(), test.to_vec(), faults.clone(), vec![], k));
        jobs.push(LentJob::new(circuit.clone(), test.to_vec(), faults.clone(), plan.clone(), k));
    }
    let mut random = Random(1);
    while jobs.len() < 14 {
        let shape = Shape { flip_flops: random.between(1, 5), gates: random.between(4, 12), ..Shape::SMALL };
        let k = random.pick(&[2, 5, 12]);
        let job = job(shape, random.between(2, 5), 1, k, random.next());
        if verdicts(&job) >= 4 {
            jobs.push(with_faults(&job, &every_fault(&job.circuit)));
        }
    }
    jobs
}

/// Small jobs with faults of as many verdicts as there are; result areas a little longer than needed.
pub fn random_jobs() -> Vec<LentJob> {
    let mut random = Random(2);
    (0..150)
        .map(|_| {
            let flip_flops = random.between(0, 8);
            let watches = random.pick(&[0, 1, 2, 3, 4]);
            let inputs = random.between(1, 3);
            let gates = random.between(3, 24);
            let outputs = random.between(1, 2);
            let self_feeding = random.pick(&[0, 15, 50]);
            let parity_gates = random.pick(&[10, 30, 50]);
            let mixed = random.percent(70);
            let shape = Shape {
                inputs,
                flip_flops,
                gates,
                outputs,
                watches,
                self_feeding,
                parity_gates,
                mixed,
                ..Shape::SMALL
            };
            let job = job(shape, random.between(1, 8), 1, random.below(13), random.next());
            let job = faults_of_all_verdicts(&job, random.between(4, 12), &mut random);
            LentJob { result_len: job.result_len + random.below(40), work_len: job.work_len + random.below(9), ..job }
        })
        .collect()
}
