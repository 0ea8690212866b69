//! The ISCAS-89 circuit s27 with three published tests, each under every stuck line and pin.

use crate::bytes::{circuit_bytes, fault_bytes, plan_bytes, LentJob, Line};
use crate::jobs::every_fault;

/// 4 inputs, 3 flip-flops, 10 gates, 1 output.
#[rustfmt::skip]
const CIRCUIT: &[Line] = &[
    (0, 0, &[]), (0, 0, &[]), (0, 0, &[]), (0, 0, &[]),
    (1, 0, &[16]), (1, 0, &[14]), (1, 0, &[10]),
    (3, 0, &[0]), (7, 0, &[1, 6]), (4, 0, &[7, 5]), (7, 0, &[2, 8]), (6, 0, &[8, 9]), (6, 0, &[3, 9]),
    (5, 0, &[12, 11]), (7, 0, &[4, 13]), (3, 1, &[14]), (7, 0, &[7, 14]),
];

/// Table 3.3 of source document 001.
const FIRST: &str = "0011 1101 0011 0011 1110 0011 1011 0001 0011 0110 \
                     0011 1011 0010 0100 0111 1110 0101 1000 0000 0110";
/// Table 3.5: Table 3.3 with 0110 inserted at time 17.
const INSERTED: &str = "0011 1101 0011 0011 1110 0011 1011 0001 0011 0110 \
                        0011 1011 0010 0100 0111 1110 0101 0110 1000 0000 0110";
/// Table 3.7.
const SECOND: &str = "1101 1011 0100 0111 0001 0100 1100 1111 0101 0011 0011 0101 1101 1110 0100";

const PLANS: [&[(usize, usize)]; 4] = [
    &[],
    &[(0, 0), (0, 1), (0, 2)],
    &[(3, 1), (1, 0), (1, 0), (1, 2), (2, 1), (20, 0), (0, 2), (4, 2), (6, 0)],
    &[(0, 3), (1, 1), (2, 2), (0, 1), (5, 0), (8, 2), (0, 0), (10, 1), (12, 2)],
];

pub fn circuit() -> Vec<u8> {
    circuit_bytes(CIRCUIT)
}

/// Every test with every plan at k = 6, the empty plan and one more at k = 3, and one at k = 2.
pub fn jobs() -> Vec<LentJob> {
    let circuit = circuit();
    let faults = fault_bytes(&every_fault(&circuit));
    let mut jobs = Vec::new();
    for test in [FIRST, INSERTED, SECOND] {
        let runs = PLANS.iter().map(|plan| (plan, 6)).chain([(&PLANS[0], 3), (&PLANS[2], 3), (&PLANS[1], 2)]);
        for (plan, k) in runs {
            jobs.push(LentJob::new(circuit.clone(), bits(test), faults.clone(), plan_bytes(plan), k));
        }
    }
    jobs
}

fn bits(test: &str) -> Vec<u8> {
    test.bytes().filter(u8::is_ascii_digit).map(|digit| digit - b'0').collect()
}

#[cfg(test)]
mod tests {
    #[test]
    fn the_circuit_is_that_of_the_sample() {
        assert_eq!(super::circuit(), include_bytes!("../../../samples/s27/circuit.dat"));
    }
}
