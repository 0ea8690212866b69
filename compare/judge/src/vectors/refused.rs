//! Refusals: every row with its position, every two rows at once, and areas of exactly enough bytes or one short.

use crate::bytes::{circuit_bytes, fault_bytes, line_record, plan_bytes, LentJob, Line};

/// Two inputs, two flip-flops, three gates, two outputs.
const CIRCUIT: &[Line] =
    &[(0, 0, &[]), (1, 0, &[5]), (0, 0, &[]), (4, 0, &[0, 1]), (1, 1, &[6]), (6, 0, &[2, 3, 4]), (9, 1, &[1, 2, 4, 5])];

fn accepted() -> LentJob {
    let faults = fault_bytes(&[(0, 0, 1), (5, 3, 0), (6, 4, 1), (1, 1, 1)]);
    let plan = plan_bytes(&[(0, 0), (1, 1), (2, 0)]);
    LentJob::new(circuit_bytes(CIRCUIT), vec![0, 1, 1, 0, 1, 1, 0, 0], faults, plan, 6)
}

pub fn jobs() -> Vec<LentJob> {
    let mut jobs = vec![accepted()];
    jobs.extend(circuits().into_iter().map(|circuit| LentJob { circuit, ..accepted() }));
    jobs.extend(tests().into_iter().map(|test| LentJob { test, ..accepted() }));
    jobs.extend(fault_lists().into_iter().map(|faults| LentJob { faults, ..accepted() }));
    jobs.extend((1..4).map(|short| LentJob { plan: vec![0; 12 - short], ..accepted() }));
    jobs.extend([13, 256, 65_536, u32::MAX as usize].map(|k| LentJob { k, ..accepted() }));
    jobs.extend(areas());
    // Every two rows at once: the first in the table is returned.
    for first in 1..=14 {
        for second in first + 1..=14 {
            let mut job = accepted();
            [second, first].into_iter().for_each(|row| break_row(&mut job, row));
            jobs.push(job);
        }
    }
    jobs
}

/// A change to byte `at` of the accepted circuit.
fn changed(at: usize, value: u8) -> Vec<u8> {
    let mut circuit = circuit_bytes(CIRCUIT);
    circuit[at] = value;
    circuit
}

/// Circuits that rows 1 to 6 refuse.
fn circuits() -> Vec<Vec<u8>> {
    let accepted = circuit_bytes(CIRCUIT);
    let mut circuits = vec![vec![], accepted[..83].to_vec(), accepted[..11].to_vec(), [&accepted[..], &[0]].concat()];
    // Kinds; pin counts of an input, a flip-flop, and gates; output mark, byte 3, unused pins.
    let bytes = [(0, 10), (36, 255), (1, 1), (13, 0), (13, 2), (37, 1), (37, 0), (61, 5), (73, 255), (60, 2), (60, 3)];
    let marks = [(2, 2), (50, 255), (75, 1), (4, 1), (11, 1), (18, 1), (19, 1), (44, 1), (71, 128)];
    // Pins: a gate names itself, a higher line, a line past the last; a flip-flop names a line past the last.
    let pins = [(40, 3), (42, 6), (43, 1), (66, 5), (78, 6), (82, 7), (16, 7), (17, 1), (53, 255)];
    circuits.extend(bytes.iter().chain(&marks).chain(&pins).map(|&(at, value)| changed(at, value)));
    // Record by record: row 5 in record 3 comes before row 2 in record 5, and row 4 in record 0 before row 3 in 1.
    for [(at, value), (then_at, then_value)] in
        [[(40, 9), (60, 10)], [(3, 1), (13, 0)], [(37, 9), (36, 11)], [(40, 9), (39, 1)]]
    {
        let mut circuit = changed(at, value);
        circuit[then_at] = then_value;
        circuits.push(circuit);
    }
    circuits.extend(counts());
    circuits
}

/// Circuits that row 6 refuses: no input, no output, 257 inputs, flip-flops or outputs.
fn counts() -> [Vec<u8>; 5] {
    let many = |kind: u8, output: u8, pins: &[usize]| line_record(kind, output, pins).repeat(257);
    let ends: [u8; 24] = [line_record(0, 0, &[]), line_record(2, 1, &[0])].concat().try_into().expect("24 bytes");
    [
        circuit_bytes(&[(1, 1, &[0]), (3, 1, &[0])]),
        circuit_bytes(&[(0, 0, &[]), (1, 0, &[0]), (3, 0, &[1])]),
        [&many(0, 0, &[])[..], &line_record(2, 1, &[0])].concat(),
        [&ends[..], &many(1, 0, &[1])].concat(),
        [&ends[..12], &many(2, 1, &[0])].concat(),
    ]
}

/// Tests that rows 7 and 8 refuse; 1,025 units among them.
fn tests() -> Vec<Vec<u8>> {
    let mut tests = vec![vec![], vec![1], vec![0; 7], vec![0; 2050], vec![0; 2051]];
    tests.extend([(0, 2), (5, 255), (7, 2)].map(|(at, value)| {
        let mut test = vec![1; 8];
        test[at] = value;
        test
    }));
    tests.push(vec![0, 0, 7, 3, 0, 9]);
    tests
}

/// Fault lists that rows 9 and 10 refuse.
fn fault_lists() -> Vec<Vec<u8>> {
    let mut lists: Vec<Vec<u8>> = [1, 2, 3, 15].iter().map(|&length| vec![0; length]).collect();
    let wrong = [
        (7, 0, 0),
        (65_535, 0, 0),
        (256, 0, 0),
        (0, 1, 0),
        (1, 2, 0),
        (3, 3, 1),
        (6, 5, 0),
        (6, 255, 0),
        (0, 0, 2),
        (4, 1, 255),
    ];
    for (position, &fault) in wrong.iter().enumerate() {
        let mut faults = vec![(0, 0, 1); position % 4];
        faults.extend([fault, (9, 9, 9)]);
        lists.push(fault_bytes(&faults));
    }
    lists
}

/// Areas one byte short, exactly enough, one byte more, and empty.
fn areas() -> Vec<LentJob> {
    let job = accepted();
    let (work, result) = (job.work_len, job.result_len);
    let lengths = [
        (work - 1, result),
        (work, result - 1),
        (work - 1, result - 1),
        (work, result),
        (work + 1, result + 1),
        (0, result),
        (work, 0),
        (work, result - 16),
    ];
    lengths.map(|(work_len, result_len)| LentJob { work_len, result_len, ..job.clone() }).to_vec()
}

/// Breaks one row, each in another byte.
fn break_row(job: &mut LentJob, row: u8) {
    match row {
        1 => drop(job.circuit.pop()),
        2 => job.circuit[36] = 10,
        3 => job.circuit[49] = 3,
        4 => job.circuit[63] = 1,
        5 => job.circuit[78] = 6,
        6 => (job.circuit[50], job.circuit[74]) = (0, 0),
        7 => drop(job.test.pop()),
        8 => job.test[3] = 2,
        9 => drop(job.faults.pop()),
        10 => job.faults[7] = 2,
        11 => drop(job.plan.pop()),
        12 => job.k = 13,
        13 => job.work_len -= 1,
        _ => job.result_len -= 1,
    }
}
