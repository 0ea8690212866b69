//! The bytes of a job, written from plain lists, and what a test program prints for it.

use crate::grade::grade;
use crate::refusals::{read_circuit, work_needed};
use std::fmt::Write;

/// A line as kind, output mark and pins.
pub type Line<'a> = (u8, u8, &'a [usize]);

/// The fill of both areas before a call.
const FILL: u8 = 170;

/// What is lent to one call of Grade.
#[derive(Clone, Default)]
pub struct LentJob {
    pub circuit: Vec<u8>,
    pub test: Vec<u8>,
    pub faults: Vec<u8>,
    pub plan: Vec<u8>,
    pub k: usize,
    pub work_len: usize,
    pub result_len: usize,
}

impl LentJob {
    /// A job with areas of exactly enough bytes.
    pub fn new(circuit: Vec<u8>, test: Vec<u8>, faults: Vec<u8>, plan: Vec<u8>, k: usize) -> LentJob {
        let result_len = faults.len() / 4 * 16;
        let work_len = work_len(&circuit, &test);
        LentJob { circuit, test, faults, plan, k, work_len, result_len }
    }

    /// A job of one fault.
    pub fn of_one_fault(
        circuit: &[Line],
        test: &[u8],
        fault: (usize, usize, u8),
        plan: &[(usize, usize)],
        k: usize,
    ) -> LentJob {
        LentJob::new(circuit_bytes(circuit), test.to_vec(), fault_bytes(&[fault]), plan_bytes(plan), k)
    }

    /// Seven 32-bit numbers, low byte first, then circuit, test, faults and plan.
    pub fn bytes(&self) -> Vec<u8> {
        let parts = [&self.circuit, &self.test, &self.faults, &self.plan];
        let mut bytes = Vec::new();
        for number in parts.map(Vec::len).into_iter().chain([self.k, self.work_len, self.result_len]) {
            bytes.extend((number as u32).to_le_bytes());
        }
        parts.into_iter().for_each(|part| bytes.extend(part));
        bytes
    }

    /// The records, or the refusal; bytes past the records keep their values.
    pub fn records(&self) -> Result<Vec<[u16; 9]>, (u8, usize)> {
        let mut result = vec![FILL; self.result_len];
        let (k, work_len) = (self.k, self.work_len);
        let graded = grade(&self.circuit, &self.test, &self.faults, &self.plan, k, work_len, &mut result);
        let written = 16 * graded.unwrap_or(0);
        assert!(result[written..].iter().all(|&byte| byte == FILL), "a byte past the result is altered");
        graded.map(|count| result.chunks_exact(16).take(count).map(fields).collect())
    }

    /// What a test program prints for the job.
    pub fn print(&self) -> String {
        match self.records() {
            Ok(records) => {
                let mut text = format!("done {} kept\n", records.len());
                records.iter().for_each(|record| text += &print_record(record));
                text
            }
            Err((rule, position)) => format!("refused {rule} {position} kept\n"),
        }
    }
}

/// Row 13's number for a circuit that rows 1 to 6 accept, else a number that suits small jobs.
fn work_len(circuit: &[u8], test: &[u8]) -> usize {
    match read_circuit(circuit) {
        Ok(circuit) => work_needed(&circuit, test.len() / circuit.inputs.len()),
        Err(_) => 4096,
    }
}

/// The nine fields of a record.
fn fields(record: &[u8]) -> [u16; 9] {
    let mut fields = [0; 9];
    fields[0] = record[0] as u16;
    fields[1] = record[1] as u16;
    for (field, pair) in fields[2..].iter_mut().zip(record[2..].chunks_exact(2)) {
        *field = u16::from_le_bytes([pair[0], pair[1]]);
    }
    fields
}

/// The fields in decimal with one space between.
pub fn print_record(record: &[u16; 9]) -> String {
    let mut text = record[0].to_string();
    for field in &record[1..] {
        write!(text, " {field}").expect("text can be written");
    }
    text + "\n"
}

/// The 12 bytes of a line.
pub fn line_record(kind: u8, output: u8, pins: &[usize]) -> [u8; 12] {
    let mut record = [0; 12];
    record[0] = kind;
    record[1] = pins.len() as u8;
    record[2] = output;
    for (place, &pin) in record[4..].chunks_exact_mut(2).zip(pins) {
        place.copy_from_slice(&(pin as u16).to_le_bytes());
    }
    record
}

pub fn circuit_bytes(lines: &[Line]) -> Vec<u8> {
    lines.iter().flat_map(|&(kind, output, pins)| line_record(kind, output, pins)).collect()
}

/// Faults as line, pin and value.
pub fn fault_bytes(faults: &[(usize, usize, u8)]) -> Vec<u8> {
    let bytes = |&(line, pin, value): &(usize, usize, u8)| [line as u8, (line >> 8) as u8, pin as u8, value];
    faults.iter().flat_map(bytes).collect()
}

/// Plan pairs as time and flip-flop index.
pub fn plan_bytes(pairs: &[(usize, usize)]) -> Vec<u8> {
    let bytes = |&(u, i): &(usize, usize)| [u as u8, (u >> 8) as u8, i as u8, (i >> 8) as u8];
    pairs.iter().flat_map(bytes).collect()
}

/// A circuit written line by line.
#[derive(Default)]
pub struct Builder {
    lines: Vec<(u8, u8, Vec<usize>)>,
}

impl Builder {
    /// Adds a line and gives its number.
    pub fn add(&mut self, kind: u8, output: u8, pins: &[usize]) -> usize {
        self.lines.push((kind, output, pins.to_vec()));
        self.lines.len() - 1
    }

    /// Names what a flip-flop added before takes.
    pub fn set_pin(&mut self, flip_flop: usize, line: usize) {
        self.lines[flip_flop].2 = vec![line];
    }

    pub fn line_count(&self) -> usize {
        self.lines.len()
    }

    pub fn bytes(&self) -> Vec<u8> {
        self.lines.iter().flat_map(|(kind, output, pins)| line_record(*kind, *output, pins)).collect()
    }
}
