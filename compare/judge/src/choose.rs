//! The call Choose: refuses a job or writes the plan records chosen for its one fault.

use crate::bytes::{plan_bytes, LentJob};
use crate::refusals::{read_for_choose, Job, Refusal};
use crate::stages::Stages;

/// The number of records written, or number and position of a refusal.
pub fn choose(
    circuit: &[u8],
    test: &[u8],
    faults: &[u8],
    k: usize,
    work_len: usize,
    result: &mut [u8],
) -> Result<usize, Refusal> {
    let job = read_for_choose(circuit, test, faults, k, work_len, result.len())?;
    let pairs = Stages::new(&job).choices(job.faults[0]);
    result[..4 * pairs.len()].copy_from_slice(&plan_bytes(&pairs));
    Ok(pairs.len())
}

/// The pairs that Choose writes for the job's one fault; the job is accepted.
pub fn choices(job: &LentJob) -> Vec<(usize, usize)> {
    let read = read_with_room(job);
    Stages::new(&read).choices(read.faults[0])
}

/// For each place in the rank of pairs the number that it decides; the job is accepted.
pub fn decided(job: &LentJob) -> [usize; 6] {
    let read = read_with_room(job);
    Stages::new(&read).decided(read.faults[0])
}

fn read_with_room(job: &LentJob) -> Job<'_> {
    let LentJob { circuit, test, faults, k, work_len, .. } = job;
    read_for_choose(circuit, test, faults, *k, *work_len, 4 * k).expect("the job is accepted")
}

#[cfg(test)]
mod tests {
    use super::*;
    use crate::mixture::job_of_one_fault;
    use crate::random::Random;

    /// Whether Grade takes every pair of this plan.
    fn takes_all(job: &LentJob, plan: &[(usize, usize)]) -> bool {
        let records = LentJob { plan: plan_bytes(plan), ..job.clone() }.records().expect("the job is accepted");
        records[0][1] as usize == plan.len()
    }

    /// The pairs that Grade takes after these.
    fn taken_next(job: &LentJob, written: &[(usize, usize)], units: usize, flip_flops: usize) -> Vec<(usize, usize)> {
        let pairs = (0..units).flat_map(|u| (0..flip_flops).map(move |i| (u, i)));
        pairs.filter(|&pair| takes_all(job, &[written, &[pair]].concat())).collect()
    }

    /// Places at each unit or later that are specified fault-free and X faulty, from the two plain responses.
    fn nout(job: &LentJob, units: usize) -> Vec<usize> {
        let shown = |faults: &[u8]| {
            let mut response = vec![0; 65_536];
            let len = crate::simulate::simulate(&job.circuit, &job.test, faults, job.work_len, &mut response);
            response.truncate(len.expect("the job is accepted"));
            response
        };
        let (expected, faulty) = (shown(&[]), shown(&job.faults));
        let outputs = expected.len() / units;
        let is_unknown = |place: &usize| expected[*place] != 2 && faulty[*place] == 2;
        (0..units).map(|u| (u * outputs..expected.len()).filter(is_unknown).count()).collect()
    }

    /// Grade, which does not rank, says which pairs may come next: one of them with the largest Nout does, until
    /// there are k or none is left. The number of pairs.
    fn check(job: &LentJob) -> usize {
        let lines_of = |kind: u8| job.circuit.chunks_exact(12).filter(|line| line[0] == kind).count();
        let (units, flip_flops) = (job.test.len() / lines_of(0), lines_of(1));
        let written = choices(job);
        if [1, 2, 5].contains(&job.records().expect("the job is accepted")[0][0]) {
            assert!(written.is_empty());
            return 0;
        }
        let nout = nout(job, units);
        for (n, pair) in written.iter().enumerate() {
            let next = taken_next(job, &written[..n], units, flip_flops);
            assert!(next.contains(pair));
            assert!(next.iter().all(|other| nout[other.0] <= nout[pair.0]));
        }
        assert!(written.len() == job.k || taken_next(job, &written, units, flip_flops).is_empty());
        written.len()
    }

    #[test]
    fn every_pair_is_the_best_that_grade_takes_next() {
        let mut random = Random(1);
        let mut pairs = 0;
        for _ in 0..300 {
            let k = random.below(7);
            let job = LentJob { result_len: 16, ..job_of_one_fault(k, &mut random) };
            if job.circuit.len() <= 20 * 12 && job.test.len() <= 30 {
                pairs += check(&job);
            }
        }
        assert!(pairs > 300);
    }
}
