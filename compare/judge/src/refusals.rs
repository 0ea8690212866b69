//! Rows 1 to 14 of the table of refusals, down the table; a job that passes the rows of its call is handed on decoded.

use crate::circuit::{Circuit, Fault};
use std::ops::RangeInclusive;

/// The number of the row and the position.
pub type Refusal = (u8, usize);

/// A job that no row refuses; a call that takes no plan and no k has none and 0.
pub struct Job<'a> {
    pub circuit: Circuit,
    pub test: &'a [u8],
    pub time_units: usize,
    pub faults: Vec<Fault>,
    /// Time and flip-flop index of each plan pair.
    pub plan: Vec<(usize, usize)>,
    pub k: usize,
}

/// Reads a job of Simulate, with at most one fault, or refuses it.
pub fn read_for_simulate<'a>(
    circuit: &[u8],
    test: &'a [u8],
    faults: &[u8],
    work_len: usize,
    result_len: usize,
) -> Result<Job<'a>, Refusal> {
    let job = read_simulation(circuit, test, faults, 0..=1)?;
    let response_len = job.time_units * job.circuit.outputs.len();
    check_areas(&job, work_len, response_len, result_len)?;
    Ok(job)
}

/// Reads a job of Grade or refuses it.
pub fn read_for_grade<'a>(
    circuit: &[u8],
    test: &'a [u8],
    faults: &[u8],
    plan: &[u8],
    k: usize,
    work_len: usize,
    result_len: usize,
) -> Result<Job<'a>, Refusal> {
    let mut job = read_simulation(circuit, test, faults, 0..=32_768)?;
    job.plan = read_plan(plan)?;
    job.k = read_k(k)?;
    check_areas(&job, work_len, 16 * job.faults.len(), result_len)?;
    Ok(job)
}

/// Reads a job of Choose, with exactly one fault, or refuses it.
pub fn read_for_choose<'a>(
    circuit: &[u8],
    test: &'a [u8],
    faults: &[u8],
    k: usize,
    work_len: usize,
    result_len: usize,
) -> Result<Job<'a>, Refusal> {
    let mut job = read_simulation(circuit, test, faults, 1..=1)?;
    job.k = read_k(k)?;
    check_areas(&job, work_len, 4 * k, result_len)?;
    Ok(job)
}

/// Rows 1 to 10, the number of faults being within what the call takes.
fn read_simulation<'a>(
    circuit: &[u8],
    test: &'a [u8],
    faults: &[u8],
    fault_count: RangeInclusive<usize>,
) -> Result<Job<'a>, Refusal> {
    let circuit = read_circuit(circuit)?;
    let time_units = read_test(&circuit, test)?;
    let faults = read_faults(&circuit, faults, fault_count)?;
    Ok(Job { circuit, test, time_units, faults, plan: Vec::new(), k: 0 })
}

/// Row 12.
fn read_k(k: usize) -> Result<usize, Refusal> {
    if k > 12 {
        return Err((12, 0));
    }
    Ok(k)
}

/// Rows 13 and 14.
fn check_areas(job: &Job, work_len: usize, result_needed: usize, result_len: usize) -> Result<(), Refusal> {
    if work_len < work_needed(&job.circuit, job.time_units) {
        return Err((13, 0));
    }
    if result_len < result_needed {
        return Err((14, 0));
    }
    Ok(())
}

/// 4 × N + L × (4 × O + 16 × F + 8) bytes.
pub fn work_needed(circuit: &Circuit, time_units: usize) -> usize {
    let per_unit = 4 * circuit.outputs.len() + 16 * circuit.flip_flops.len() + 8;
    4 * circuit.line_count + time_units * per_unit
}

/// Rows 1 to 6.
pub fn read_circuit(bytes: &[u8]) -> Result<Circuit, Refusal> {
    if bytes.is_empty() || !bytes.len().is_multiple_of(12) || bytes.len() > 49_152 {
        return Err((1, 0));
    }
    let mut circuit = Circuit::default();
    let line_count = bytes.len() / 12;
    for (line, record) in bytes.chunks_exact(12).enumerate() {
        check_record(record, line, line_count).map_err(|row| (row, line))?;
        circuit.add(record[0], record[2] == 1, pin_lines(record), record[1]);
    }
    let few = 1..=256;
    let (inputs, outputs) = (circuit.inputs.len(), circuit.outputs.len());
    if !few.contains(&inputs) || !few.contains(&outputs) || circuit.flip_flops.len() > 256 {
        return Err((6, 0));
    }
    Ok(circuit)
}

/// Rows 2 to 5 for one record.
fn check_record(record: &[u8], line: usize, line_count: usize) -> Result<(), u8> {
    let (kind, pin_count) = (record[0], record[1] as usize);
    if kind > 9 {
        return Err(2);
    }
    let pins_allowed = match kind {
        0 => 0..=0,
        1..=3 => 1..=1,
        _ => 2..=4,
    };
    if !pins_allowed.contains(&pin_count) {
        return Err(3);
    }
    let (used, unused) = record[4..].split_at(2 * pin_count);
    if record[2] > 1 || record[3] != 0 || unused.iter().any(|&byte| byte != 0) {
        return Err(4);
    }
    let lines_nameable = if kind == 1 { line_count } else { line };
    if used.chunks_exact(2).any(|pin| number(pin) >= lines_nameable) {
        return Err(5);
    }
    Ok(())
}

fn pin_lines(record: &[u8]) -> [u16; 4] {
    let mut lines = [0; 4];
    for (line, field) in lines.iter_mut().zip(record[4..].chunks_exact(2)) {
        *line = number(field) as u16;
    }
    lines
}

/// Rows 7 and 8; the number of time units.
pub fn read_test(circuit: &Circuit, test: &[u8]) -> Result<usize, Refusal> {
    let inputs = circuit.inputs.len();
    let time_units = test.len() / inputs;
    if test.is_empty() || !test.len().is_multiple_of(inputs) || time_units > 1024 {
        return Err((7, 0));
    }
    match test.iter().position(|&byte| byte > 1) {
        Some(byte) => Err((8, byte)),
        None => Ok(time_units),
    }
}

/// Rows 9 and 10.
fn read_faults(circuit: &Circuit, bytes: &[u8], count: RangeInclusive<usize>) -> Result<Vec<Fault>, Refusal> {
    if !bytes.len().is_multiple_of(4) || !count.contains(&(bytes.len() / 4)) {
        return Err((9, 0));
    }
    let mut faults = Vec::with_capacity(bytes.len() / 4);
    for (position, record) in bytes.chunks_exact(4).enumerate() {
        let fault = Fault { line: number(record), pin: record[2] as usize, value: record[3] };
        let line_exists = fault.line < circuit.line_count;
        if !line_exists || fault.pin > circuit.pin_counts[fault.line] as usize || fault.value > 1 {
            return Err((10, position));
        }
        faults.push(fault);
    }
    Ok(faults)
}

/// Row 11.
fn read_plan(bytes: &[u8]) -> Result<Vec<(usize, usize)>, Refusal> {
    if !bytes.len().is_multiple_of(4) || bytes.len() / 4 > 4096 {
        return Err((11, 0));
    }
    Ok(bytes.chunks_exact(4).map(|pair| (number(pair), number(&pair[2..]))).collect())
}

/// A 16-bit field, low byte first.
fn number(field: &[u8]) -> usize {
    field[0] as usize + 256 * field[1] as usize
}
