//! Small jobs of the model with their stated results, as data, and whether this grader agrees with them.

use crate::bytes::{plan_bytes, LentJob, Line};
use crate::calls::{Call, Kind};

/// A job of one fault and the first eight fields stated for it.
struct ModelJob {
    circuit: &'static [Line<'static>],
    test: &'static [u8],
    fault: (usize, usize, u8),
    plan: &'static [(usize, usize)],
    k: usize,
    fields: [u16; 8],
}

/// A job of one fault and the pairs that Choose is stated to write, which Grade then takes.
struct ChosenPlan {
    circuit: &'static [Line<'static>],
    test: &'static [u8],
    fault: (usize, usize, u8),
    k: usize,
    plan: &'static [(usize, usize)],
}

/// The jobs stated with a result of Grade, then those stated with a plan of Choose.
pub fn jobs() -> Vec<LentJob> {
    GRADED.iter().map(ModelJob::lent).chain(CHOSEN.iter().map(ChosenPlan::lent)).collect()
}

/// Every job on which this grader gives something else than is stated.
pub fn differences() -> Vec<String> {
    let graded = GRADED.iter().enumerate().filter_map(|(n, job)| job.difference(n));
    graded.chain(CHOSEN.iter().enumerate().filter_map(|(n, job)| job.difference(n))).collect()
}

impl ModelJob {
    fn lent(&self) -> LentJob {
        LentJob::of_one_fault(self.circuit, self.test, self.fault, self.plan, self.k)
    }

    fn difference(&self, position: usize) -> Option<String> {
        let records = self.lent().records();
        let agrees = matches!(&records, Ok(records) if records[0][..8] == self.fields);
        (!agrees).then(|| format!("graded job {position}: {records:?}, stated {:?}", self.fields))
    }
}

impl ChosenPlan {
    fn lent(&self) -> LentJob {
        LentJob::of_one_fault(self.circuit, self.test, self.fault, self.plan, self.k)
    }

    /// Choose writes these pairs, and Grade takes every one; none is written for verdicts 1, 2 and 5.
    fn difference(&self, position: usize) -> Option<String> {
        let job = self.lent();
        let records = job.records();
        let agrees = |record: &[u16; 9]| match record[0] {
            1 | 2 | 5 => self.plan.is_empty(),
            _ => record[1] as usize == self.plan.len(),
        };
        let taken = matches!(&records, Ok(records) if agrees(&records[0]));
        let result_len = 4 * job.k;
        let answer = Call { kind: Kind::Choose, job: LentJob { result_len, ..job }, verdicts: vec![] }.answer();
        let written = answer.done == Ok(self.plan.len()) && answer.result.starts_with(&plan_bytes(self.plan));
        let found = || format!("chosen plan {position}: {:?}, {records:?}, stated {:?}", answer.result, self.plan);
        (!taken || !written).then(found)
    }
}

#[rustfmt::skip]
const GRADED: &[ModelJob] = &[
    ModelJob { circuit: &[(0, 0, &[]), (1, 0, &[1]), (1, 0, &[5]), (1, 0, &[7]), (8, 0, &[1, 2]), (4, 0, &[2, 4]), (9, 0, &[1, 3]), (4, 0, &[3, 6]), (6, 1, &[0, 5]), (6, 1, &[0, 7])],
        test: &[1, 1, 1, 0], fault: (0, 0, 0), plan: &[(0, 0), (0, 1)], k: 3, fields: [2, 0, 1, 3, 0, 0, 0, 0] },
    ModelJob { circuit: &[(0, 0, &[]), (1, 0, &[5]), (1, 1, &[4]), (1, 0, &[3]), (4, 0, &[1, 3]), (4, 0, &[0, 2])],
        test: &[0, 1, 1], fault: (1, 0, 1), plan: &[(1, 1), (2, 0)], k: 3, fields: [6, 2, 0, 0, 1, 2, 1, 0] },
    ModelJob { circuit: &[(1, 0, &[1]), (7, 1, &[0, 0]), (5, 0, &[0, 1, 1]), (0, 0, &[]), (5, 1, &[3, 1]), (0, 0, &[]), (1, 0, &[2]), (1, 0, &[4]), (7, 0, &[3, 4])],
        test: &[1, 0, 0, 1, 0, 0], fault: (4, 1, 1), plan: &[(0, 1), (1, 2), (1, 2), (0, 0), (0, 2)], k: 2, fields: [3, 2, 0, 0, 4, 0, 0, 0] },
    ModelJob { circuit: &[(1, 0, &[1]), (7, 1, &[0, 0]), (5, 0, &[0, 1, 1]), (0, 0, &[]), (5, 1, &[3, 1]), (0, 0, &[]), (1, 0, &[2]), (1, 0, &[4]), (7, 0, &[3, 4])],
        test: &[1, 0, 0, 1, 0, 0], fault: (1, 1, 0), plan: &[(0, 1), (1, 2), (1, 2), (0, 0), (0, 2)], k: 2, fields: [5, 0, 0, 0, 0, 0, 0, 0] },
    ModelJob { circuit: &[(0, 0, &[]), (1, 0, &[5]), (1, 0, &[4]), (7, 1, &[2, 0]), (7, 0, &[1, 3]), (9, 0, &[3, 3])],
        test: &[0, 1], fault: (0, 0, 0), plan: &[(1, 1), (1, 0)], k: 4, fields: [6, 1, 0, 0, 1, 0, 1, 2] },
    ModelJob { circuit: &[(0, 0, &[]), (1, 0, &[3]), (1, 0, &[1]), (6, 0, &[2, 1]), (5, 1, &[0, 1])],
        test: &[0, 0], fault: (0, 0, 1), plan: &[(1, 0)], k: 4, fields: [6, 0, 0, 0, 0, 0, 1, 0] },
    ModelJob { circuit: &[(0, 0, &[]), (1, 1, &[8]), (1, 1, &[8]), (1, 0, &[7]), (1, 1, &[6]), (9, 1, &[1, 2]), (7, 0, &[5, 3, 0]), (6, 0, &[3, 0]), (8, 1, &[0, 1, 4, 4])],
        test: &[0, 1, 0, 1], fault: (7, 0, 0), plan: &[], k: 3, fields: [7, 0, 0, 0, 0, 0, 1, 0] },
    ModelJob { circuit: &[(0, 0, &[]), (1, 1, &[8]), (1, 1, &[8]), (1, 0, &[7]), (1, 1, &[6]), (9, 1, &[1, 2]), (7, 0, &[5, 3, 0]), (6, 0, &[3, 0]), (8, 1, &[0, 1, 4, 4])],
        test: &[0, 1, 0, 1], fault: (0, 0, 1), plan: &[], k: 3, fields: [5, 0, 0, 0, 0, 0, 0, 0] },
    ModelJob { circuit: &[(0, 1, &[]), (6, 1, &[0, 0])],
        test: &[1], fault: (0, 0, 0), plan: &[], k: 3, fields: [1, 0, 0, 0, 0, 0, 0, 0] },
    ModelJob { circuit: &[(0, 0, &[]), (1, 1, &[2]), (6, 0, &[1, 0]), (4, 1, &[0, 1])],
        test: &[1, 0], fault: (0, 0, 0), plan: &[], k: 1, fields: [6, 0, 0, 0, 0, 0, 1, 1] },
    ModelJob { circuit: &[(0, 0, &[]), (1, 0, &[1]), (1, 0, &[3]), (5, 1, &[2, 0])],
        test: &[0, 1, 1], fault: (3, 2, 1), plan: &[(2, 0)], k: 3, fields: [6, 1, 0, 0, 0, 0, 2, 0] },
    ModelJob { circuit: &[(0, 0, &[]), (1, 0, &[4]), (9, 0, &[0, 1]), (4, 0, &[1, 2]), (6, 1, &[0, 3])],
        test: &[1, 1], fault: (0, 0, 0), plan: &[], k: 3, fields: [2, 0, 1, 1, 0, 0, 0, 0] },
    ModelJob { circuit: &[(0, 0, &[]), (1, 0, &[4]), (1, 0, &[3]), (8, 0, &[1, 1]), (4, 0, &[2, 0]), (4, 1, &[3, 4])],
        test: &[0, 1], fault: (3, 2, 1), plan: &[], k: 2, fields: [6, 0, 0, 0, 0, 0, 1, 1] },
    ModelJob { circuit: &[(0, 0, &[]), (1, 0, &[8]), (1, 0, &[7]), (3, 0, &[2]), (3, 0, &[1]), (8, 0, &[1, 2]), (3, 0, &[1]), (4, 0, &[5, 6]), (4, 0, &[5, 4]), (6, 1, &[0, 3]), (6, 1, &[0, 8])],
        test: &[1, 1], fault: (0, 0, 0), plan: &[(1, 1)], k: 3, fields: [2, 0, 1, 2, 0, 0, 0, 0] },
    ModelJob { circuit: &[(0, 0, &[]), (1, 0, &[1]), (1, 0, &[6]), (1, 0, &[8]), (1, 0, &[4]), (8, 0, &[1, 2]), (4, 0, &[2, 5]), (9, 0, &[1, 3]), (4, 0, &[3, 7]), (6, 1, &[0, 6]), (6, 1, &[0, 8]), (3, 0, &[4]), (6, 1, &[0, 4]), (6, 1, &[0, 11])],
        test: &[1, 1], fault: (0, 0, 0), plan: &[], k: 3, fields: [2, 0, 1, 4, 0, 0, 0, 0] },
    ModelJob { circuit: &[(0, 0, &[]), (1, 1, &[2]), (7, 1, &[0, 0])],
        test: &[1, 1], fault: (0, 0, 0), plan: &[], k: 2, fields: [1, 0, 0, 2, 0, 0, 0, 0] },
    ModelJob { circuit: &[(0, 0, &[]), (1, 1, &[2]), (5, 0, &[0, 1])],
        test: &[0, 0, 0], fault: (0, 0, 1), plan: &[], k: 3, fields: [3, 0, 0, 0, 1, 0, 0, 0] },
    ModelJob { circuit: &[(0, 0, &[]), (1, 1, &[2]), (7, 0, &[0, 1])],
        test: &[1, 1, 0], fault: (2, 1, 0), plan: &[(0, 0), (1, 0)], k: 2, fields: [3, 2, 0, 0, 2, 2, 0, 0] },
    ModelJob { circuit: &[(0, 0, &[]), (0, 0, &[]), (9, 0, &[0, 1, 1]), (5, 1, &[2, 1])],
        test: &[0, 1], fault: (2, 1, 1), plan: &[], k: 3, fields: [1, 0, 0, 3, 0, 0, 0, 0] },
    ModelJob { circuit: &[(0, 0, &[]), (1, 0, &[2]), (2, 0, &[1]), (6, 1, &[1, 0])],
        test: &[1, 1], fault: (0, 0, 0), plan: &[(1, 0)], k: 2, fields: [6, 0, 0, 0, 0, 0, 1, 1] },
    ModelJob { circuit: &[(0, 0, &[]), (1, 0, &[1]), (1, 0, &[3]), (6, 1, &[2, 1, 0])],
        test: &[1, 0, 1, 1], fault: (2, 0, 0), plan: &[(3, 0)], k: 3, fields: [6, 0, 0, 0, 0, 0, 1, 1] },
    ModelJob { circuit: &[(0, 0, &[]), (1, 0, &[0]), (1, 0, &[1]), (5, 0, &[1, 2]), (9, 1, &[0, 3])],
        test: &[0, 1], fault: (1, 1, 1), plan: &[], k: 4, fields: [6, 0, 0, 0, 0, 0, 1, 0] },
    ModelJob { circuit: &[(0, 0, &[]), (1, 0, &[4]), (1, 0, &[3]), (6, 1, &[0, 1, 2]), (5, 0, &[1, 1])],
        test: &[1, 0, 0], fault: (2, 0, 0), plan: &[], k: 1, fields: [3, 0, 0, 0, 1, 0, 0, 0] },
    ModelJob { circuit: &[(0, 0, &[]), (1, 1, &[5]), (1, 0, &[2]), (6, 0, &[0, 1]), (8, 0, &[3, 3]), (4, 0, &[4, 2])],
        test: &[1, 0, 0], fault: (4, 1, 0), plan: &[(2, 0)], k: 3, fields: [6, 0, 0, 0, 0, 0, 1, 0] },
    ModelJob { circuit: &[(0, 0, &[]), (0, 0, &[]), (1, 0, &[2]), (1, 0, &[3]), (3, 0, &[2]), (3, 0, &[3]), (6, 1, &[0, 2]), (6, 1, &[0, 1, 4]), (6, 1, &[0, 3]), (6, 1, &[0, 5])],
        test: &[1, 1, 1, 0, 1, 0], fault: (0, 0, 0), plan: &[], k: 3, fields: [2, 0, 1, 3, 0, 0, 0, 0] },
];

#[rustfmt::skip]
const CHOSEN: &[ChosenPlan] = &[
    ChosenPlan { circuit: &[(0, 0, &[]), (1, 0, &[2]), (1, 0, &[6]), (1, 0, &[5]), (1, 0, &[7]), (7, 0, &[3, 2]), (4, 1, &[4, 5]), (7, 0, &[0, 2])],
        test: &[1, 1], fault: (4, 1, 1), k: 2, plan: &[(1, 2), (0, 0)] },
    ChosenPlan { circuit: &[(1, 0, &[1]), (0, 0, &[]), (6, 1, &[1, 0]), (1, 0, &[3])],
        test: &[1, 1], fault: (2, 1, 0), k: 6, plan: &[(0, 0), (0, 1), (1, 1)] },
    ChosenPlan { circuit: &[(0, 0, &[]), (1, 0, &[5]), (1, 0, &[4]), (7, 1, &[2, 0]), (6, 0, &[1, 3]), (9, 0, &[3, 3])],
        test: &[0, 1], fault: (0, 0, 0), k: 4, plan: &[(1, 1), (0, 0), (0, 1)] },
    ChosenPlan { circuit: &[(0, 0, &[]), (1, 1, &[4]), (1, 0, &[3]), (5, 0, &[0, 1]), (7, 0, &[1, 3])],
        test: &[1, 0, 0], fault: (4, 2, 0), k: 2, plan: &[(2, 0), (1, 0)] },
    ChosenPlan { circuit: &[(0, 0, &[]), (1, 0, &[1]), (4, 1, &[1, 0])],
        test: &[0, 1], fault: (2, 2, 1), k: 4, plan: &[(0, 0)] },
    ChosenPlan { circuit: &[(0, 0, &[]), (1, 0, &[2]), (1, 1, &[3]), (4, 0, &[0, 1])],
        test: &[0, 0], fault: (3, 1, 1), k: 3, plan: &[(0, 0), (0, 1), (1, 0)] },
    ChosenPlan { circuit: &[(0, 0, &[]), (1, 0, &[6]), (1, 0, &[6]), (1, 0, &[5]), (7, 1, &[3, 0]), (7, 0, &[2, 4]), (9, 0, &[4, 4])],
        test: &[0, 1], fault: (0, 0, 0), k: 4, plan: &[(1, 0), (0, 0), (0, 1), (0, 2)] },
    ChosenPlan { circuit: &[(0, 1, &[]), (1, 0, &[2]), (4, 1, &[0, 1])],
        test: &[0], fault: (0, 0, 1), k: 4, plan: &[] },
    ChosenPlan { circuit: &[(0, 0, &[]), (1, 1, &[2]), (4, 0, &[0, 1])],
        test: &[0], fault: (2, 1, 1), k: 3, plan: &[] },
    ChosenPlan { circuit: &[(0, 0, &[]), (1, 1, &[2]), (7, 1, &[1, 0])],
        test: &[1, 1, 1], fault: (2, 2, 0), k: 3, plan: &[] },
    ChosenPlan { circuit: &[(0, 0, &[]), (1, 0, &[0]), (1, 0, &[3]), (5, 1, &[2, 1])],
        test: &[0, 0], fault: (1, 0, 1), k: 3, plan: &[(1, 1), (0, 0), (0, 1)] },
    ChosenPlan { circuit: &[(0, 0, &[]), (1, 1, &[2]), (1, 0, &[4]), (4, 0, &[0, 1]), (7, 1, &[3, 0])],
        test: &[1, 0, 0], fault: (4, 2, 0), k: 3, plan: &[(0, 0), (0, 1), (2, 0)] },
];
