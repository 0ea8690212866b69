//! The programs beside this grader: random files for the first, random calls for the second, random seeds and lengths
//! for the third, every print to the byte.

use crate::calls::{Call, Kind};
use crate::probe::{call_bytes, prints};
use crate::program::{self, FILES};
use crate::random::Random;
use crate::refusals::{read_circuit, read_test};
use crate::scratch::{Run, Scratch};
use crate::sequence::{agrees, Sequence};
use crate::tally::Tally;
use crate::{random_calls, random_files, random_sequences};
use std::{fs, io, path::PathBuf, time::Instant};

/// The longest file that is lent to the program that makes calls.
const LONGEST_FILE: usize = 65_536;

/// The number of differences that are shown and kept.
const SHOWN: usize = 5;

struct Comparison {
    grader: PathBuf,
    probe: PathBuf,
    random: PathBuf,
    scratch: Scratch,
    tally: Tally,
    differences: usize,
}

/// So many jobs, one in ten damaged, and for one in five of them a call and a sequence.
pub fn compare(programs: [&str; 3], jobs: usize, seed: u64) -> io::Result<()> {
    let begun = Instant::now();
    let [grader, probe, random] = programs.map(fs::canonicalize);
    let (grader, probe, random) = (grader?, probe?, random?);
    let (scratch, tally) = (Scratch::new()?, Tally::default());
    let mut comparison = Comparison { grader, probe, random, scratch, tally, differences: 0 };
    let mut seeds = Random(seed);
    for n in 0..jobs {
        let mut random = Random(seeds.next());
        comparison.compare_program(n, &mut random)?;
        if n % 5 == 0 {
            comparison.compare_call(n, &mut random)?;
            comparison.compare_sequence(n, &mut random)?;
        }
    }
    comparison.tally.print();
    println!("{} differences, {:.1} s, seed {seed}", comparison.differences, begun.elapsed().as_secs_f64());
    comparison.scratch.clear()?;
    match comparison.differences {
        0 => Ok(()),
        _ => Err(io::Error::other("the programs differ from the judge")),
    }
}

impl Comparison {
    /// A job of the program.
    fn compare_program(&mut self, n: usize, random: &mut Random) -> io::Result<()> {
        let is_damaged = random.percent(10);
        let files = if is_damaged { random_files::damaged(random) } else { random_files::whole(random) };
        for (name, file) in FILES.into_iter().zip(&files) {
            self.scratch.put(name, file.as_deref())?;
        }
        let [circuit, test, faults, plan] = files.each_ref().map(|file| file.as_deref().unwrap_or_default());
        let expected = program::print([circuit, test, faults, plan]);
        self.tally.count_job(is_damaged, &expected);
        let run = self.scratch.run(&self.grader, &[])?;
        self.hold(&format!("job {n}"), &[expected], run)
    }

    /// A call; one in fifty is told by bytes that are not as they should be.
    fn compare_call(&mut self, n: usize, random: &mut Random) -> io::Result<()> {
        let call = call_of_short_files(random);
        let inputs = [&call.job.circuit, &call.job.test, &call.job.faults, &call.job.plan];
        for (name, bytes) in FILES.into_iter().zip(inputs) {
            self.scratch.put(name, Some(bytes))?;
        }
        self.scratch
            .put("verdicts.dat", Some(&call.verdicts).filter(|_| call.kind == Kind::Group).map(Vec::as_slice))?;
        let mut bytes = call_bytes(&call);
        let is_bad = random.percent(2);
        if is_bad {
            spoil(&mut bytes, random);
        }
        self.scratch.put("call.dat", Some(&bytes))?;
        let told = Some(&call).filter(|_| !is_bad);
        self.tally.count_call(told);
        let run = self.scratch.run(&self.probe, &[])?;
        self.hold(&format!("call {n}, {:?}", call.kind), &prints(told), run)
    }

    /// A run that writes a sequence; each that it should write is a test of its circuit by rows 7 and 8.
    fn compare_sequence(&mut self, n: usize, random: &mut Random) -> io::Result<()> {
        let sequence = random_sequences::sequence(random);
        self.scratch.put(FILES[0], Some(&sequence.circuit))?;
        let call = sequence.call();
        let answer = call.answer();
        self.tally.count_sequence(&answer);
        let Sequence { circuit, seed, units } = &sequence;
        let run = self.scratch.run(&self.random, &[seed, units])?;
        if !agrees(&answer, &run) {
            let name = format!("sequence {n}, random {seed} {units}, expected {}", answer.words());
            let bytes = &answer.result[..answer.done.unwrap_or(0)];
            if self.differ(&name, bytes, &run)? {
                show_sequence(bytes, &run);
            }
            return Ok(());
        }
        if answer.done.is_ok() {
            let read = read_circuit(circuit).and_then(|circuit| read_test(&circuit, &run.print));
            assert_eq!(read, Ok(call.units), "rows 7 and 8 refuse a sequence");
        }
        Ok(())
    }

    /// Compares a program's print with those it may make.
    fn hold(&mut self, name: &str, expected: &[String], run: Run) -> io::Result<()> {
        if run.succeeded && expected.iter().any(|print| print.as_bytes() == run.print) {
            return Ok(());
        }
        let stated = expected[expected.len() - 1].as_str();
        if self.differ(name, stated.as_bytes(), &run)? {
            show_difference(stated, &String::from_utf8_lossy(&run.print));
        }
        Ok(())
    }

    /// Counts a difference; whether it is one of the first, which are shown and of which the files are kept.
    fn differ(&mut self, name: &str, expected: &[u8], run: &Run) -> io::Result<bool> {
        self.differences += 1;
        if self.differences > SHOWN {
            return Ok(false);
        }
        let directory = self.scratch.keep(&[("expected", expected), ("printed", &run.print)])?;
        println!("{name}: exit code 0 {}, files, expected and printed in {}", run.succeeded, directory.display());
        Ok(true)
    }
}

fn call_of_short_files(random: &mut Random) -> Call {
    loop {
        let call = random_calls::call(random);
        let job = &call.job;
        if [&job.circuit, &job.test, &job.faults, &job.plan].iter().all(|file| file.len() <= LONGEST_FILE) {
            return call;
        }
    }
}

/// Bytes that tell no call: another length, an unknown call, byte 1 not 0, or an area that is too long.
fn spoil(bytes: &mut Vec<u8>, random: &mut Random) {
    match random.below(5) {
        0 => bytes.truncate(random.below(12)),
        1 => bytes.push(0),
        2 => bytes[0] = random.pick(&[0, 5, 255]),
        3 => bytes[1] = random.pick(&[1, 255]),
        _ => {
            let length = random.pick(&[random_calls::LONGEST_AREA as u32 + 1, 1 << 24, u32::MAX]);
            bytes[random.pick(&[4, 8])..][..4].copy_from_slice(&length.to_le_bytes());
        }
    }
}

/// Both prints whole if they are short, else the first line that differs.
fn show_difference(expected: &str, printed: &str) {
    if expected.len() + printed.len() < 4000 {
        println!("expected:\n{expected}printed:\n{printed}");
        return;
    }
    let (mut wanted, mut found) = (expected.lines(), printed.lines());
    for line in 1.. {
        match (wanted.next(), found.next()) {
            (None, None) => break,
            (wanted, found) if wanted == found => (),
            (wanted, found) => return println!("line {line}: expected {wanted:?}, printed {found:?}"),
        }
    }
}

/// Both lengths, the first byte that differs, and what was written to standard error.
fn show_sequence(expected: &[u8], run: &Run) {
    let first = expected.iter().zip(&run.print).position(|(wanted, found)| wanted != found);
    println!("{} bytes expected, {} printed, the first that differs {first:?}", expected.len(), run.print.len());
    println!("standard error: {:?}", String::from_utf8_lossy(&run.errors));
}
