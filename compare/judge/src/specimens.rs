//! The specimens of the scope: three small circuits and the eleven verdicts given for them.

use crate::bytes::{circuit_bytes, fault_bytes, LentJob, Line};
use crate::program;

/// Input 0; flip-flop 1 of 3, output; 2 = NOT 1; 3 = AND 0, 2.
const A: &[Line] = &[(0, 0, &[]), (1, 1, &[3]), (3, 0, &[1]), (4, 0, &[0, 2])];

/// Input 0; flip-flop 1 of 2, output; 2 = AND 0, 1.
const B: &[Line] = &[(0, 0, &[]), (1, 1, &[2]), (4, 0, &[0, 1])];

/// Input 0; flip-flop 1 of 1; 2 = NOT 1; outputs 3 = OR 0, 1 and 4 = OR 0, 2.
const D: &[Line] = &[(0, 0, &[]), (1, 0, &[1]), (3, 0, &[1]), (6, 1, &[0, 1]), (6, 1, &[0, 2])];

struct Specimen {
    name: &'static str,
    circuit: &'static [Line<'static>],
    test: &'static [u8],
    fault: (usize, usize, u8),
    plan: &'static [(usize, usize)],
    k: usize,
    fields: [u16; 9],
}

#[rustfmt::skip]
const ELEVEN: [Specimen; 11] = [
    Specimen { name: "A (0,0,1)", circuit: A, test: &[0, 0, 0], fault: (0, 0, 1), plan: &[], k: 6, fields: [3, 0, 0, 0, 1, 0, 0, 0, 0] },
    Specimen { name: "A (0,0,0)", circuit: A, test: &[0, 0, 0], fault: (0, 0, 0), plan: &[], k: 6, fields: [5, 0, 0, 0, 0, 0, 0, 0, 0] },
    Specimen { name: "A (3,0,1)", circuit: A, test: &[0, 0, 0], fault: (3, 0, 1), plan: &[], k: 6, fields: [1, 0, 1, 1, 0, 0, 0, 0, 0] },
    Specimen { name: "A (3,1,1)", circuit: A, test: &[0, 0, 0], fault: (3, 1, 1), plan: &[], k: 6, fields: [3, 0, 0, 0, 1, 0, 0, 0, 0] },
    Specimen { name: "B, empty plan", circuit: B, test: &[0, 0], fault: (0, 0, 1), plan: &[], k: 6, fields: [6, 0, 0, 0, 0, 0, 1, 0, 0] },
    Specimen { name: "B, k = 0", circuit: B, test: &[0, 0], fault: (0, 0, 1), plan: &[], k: 0, fields: [7, 0, 0, 0, 0, 0, 1, 0, 0] },
    Specimen { name: "B, plan (0,0)", circuit: B, test: &[0, 0], fault: (0, 0, 1), plan: &[(0, 0)], k: 6, fields: [6, 1, 0, 0, 1, 0, 1, 0, 0] },
    Specimen { name: "B, plan (0,0) (1,0)", circuit: B, test: &[0, 0], fault: (0, 0, 1), plan: &[(0, 0), (1, 0)], k: 6, fields: [6, 2, 0, 0, 1, 2, 1, 0, 0] },
    Specimen { name: "D, test 1", circuit: D, test: &[1], fault: (0, 0, 0), plan: &[], k: 6, fields: [4, 0, 0, 0, 0, 0, 1, 0, 0] },
    Specimen { name: "D, plan (0,0)", circuit: D, test: &[1], fault: (0, 0, 0), plan: &[(0, 0)], k: 6, fields: [3, 1, 0, 0, 2, 0, 0, 0, 0] },
    Specimen { name: "D, test 1 1", circuit: D, test: &[1, 1], fault: (0, 0, 0), plan: &[], k: 6, fields: [2, 0, 1, 1, 0, 0, 0, 0, 0] },
];

impl Specimen {
    fn lent(&self) -> LentJob {
        LentJob::of_one_fault(self.circuit, self.test, self.fault, self.plan, self.k)
    }
}

/// The faults of A's whole print.
const FAULTS_OF_A: [(usize, usize, u8); 4] = [(0, 0, 1), (0, 0, 0), (3, 0, 1), (3, 1, 1)];

/// A's whole print under the test 0 0 0 with an empty plan.
const PRINT_OF_A: &str = "0 0 1 3 0 0 0 1 0 0 0 0\n\
                          0 0 0 5 0 0 0 0 0 0 0 1\n\
                          3 0 1 1 0 1 1 0 0 0 0 2\n\
                          3 1 1 3 0 0 0 1 0 0 0 0\n\
                          total 1 0 2 0 1 0 0\n";

/// A with its whole fault list.
fn whole_of_a() -> LentJob {
    LentJob::new(circuit_bytes(A), vec![0, 0, 0], fault_bytes(&FAULTS_OF_A), vec![], 6)
}

/// The eleven jobs, then A with its whole fault list.
pub fn jobs() -> Vec<LentJob> {
    ELEVEN.iter().map(Specimen::lent).chain([whole_of_a()]).collect()
}

/// Every specimen on which this grader gives something else than the scope, the print of A among them.
pub fn differences() -> Vec<String> {
    let difference = |specimen: &Specimen| {
        let records = specimen.lent().records();
        let agrees = records == Ok(vec![specimen.fields]);
        (!agrees).then(|| format!("{}: {records:?}, stated {:?}", specimen.name, specimen.fields))
    };
    let LentJob { circuit, test, faults, plan, .. } = whole_of_a();
    let print = program::print([&circuit, &test, &faults, &plan]);
    let print = (print != PRINT_OF_A).then(|| format!("print of A:\n{print}stated:\n{PRINT_OF_A}"));
    ELEVEN.iter().filter_map(difference).chain(print).collect()
}

#[cfg(test)]
mod tests {
    #[test]
    fn specimens_are_as_stated() {
        assert_eq!(super::differences(), Vec::<String>::new());
    }
}
