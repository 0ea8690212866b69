//! This grader in the place of the programs that it is compared with: it reads their files and prints what they should.

use crate::bench_programs::{Program, FILE};
use crate::bytes::LentJob;
use crate::probe::{prints, read_call};
use crate::program::{self, FILES};
use crate::sequence::Sequence;
use std::fs;
use std::io::{self, Write};

fn file(name: &str) -> Vec<u8> {
    fs::read(name).unwrap_or_default()
}

pub fn grader() -> io::Result<()> {
    let [circuit, test, faults, plan] = FILES.map(file);
    io::stdout().write_all(program::print([&circuit, &test, &faults, &plan]).as_bytes())
}

pub fn probe() -> io::Result<()> {
    let [circuit, test, faults, plan] = FILES.map(file);
    let job = LentJob { circuit, test, faults, plan, ..LentJob::default() };
    let call = read_call(&file("call.dat"), job, file("verdicts.dat"));
    io::stdout().write_all(prints(call.as_ref())[0].as_bytes())
}

/// The error that a refused call ends with is written to standard error.
pub fn random(seed: &str, units: &str) -> io::Result<()> {
    let [seed, units] = [seed, units].map(str::to_string);
    let answer = Sequence { circuit: file(FILES[0]), seed, units }.call().answer();
    match answer.done {
        Ok(length) => io::stdout().write_all(&answer.result[..length]),
        Err(_) => Err(io::Error::other(format!("random: {}: the judge refuses it", answer.words()))),
    }
}

/// `bench` or `names` on the file of its argument.
pub fn of_text(program: Program, arguments: &[&str]) -> io::Result<()> {
    let text = fs::read(arguments.first().unwrap_or(&FILE))?;
    match program.print(&text) {
        Ok(bytes) => io::stdout().write_all(&bytes),
        Err(refusal) => Err(io::Error::other(program.telling(refusal) + "the judge refuses it")),
    }
}
