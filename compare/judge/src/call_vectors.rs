//! Small calls of every sort with their answers, for a test program that makes one after another.

mod choosing;
mod grouping;
mod refused;

use crate::bytes::LentJob;
use crate::calls::{hexadecimal, Answer, Call, Kind};
use crate::mixture;
use crate::random::Random;
use crate::random_calls::result_needed;
use std::{fs, io, path::Path};

/// Writes calls.dat and stdout, and prints how many there are of each.
pub fn write(directory: &Path) -> io::Result<()> {
    let calls = calls();
    let bytes: Vec<u8> = calls.iter().flat_map(call_bytes).collect();
    let print: String = calls.iter().map(|call| line(&call.answer())).collect();
    fs::create_dir_all(directory)?;
    fs::write(directory.join("calls.dat"), &bytes)?;
    fs::write(directory.join("stdout"), &print)?;
    let longest = |length: fn(&Call) -> usize| calls.iter().map(length).max().unwrap_or(0);
    println!("{} calls, calls.dat {} bytes, stdout {} bytes", calls.len(), bytes.len(), print.len());
    println!(
        "longest work area {}, result area {}",
        longest(|call| call.job.work_len),
        longest(|call| call.job.result_len)
    );
    Kind::ALL.into_iter().for_each(|kind| print_tally(kind, &calls));
    Ok(())
}

fn print_tally(kind: Kind, calls: &[Call]) {
    let mut done = 0;
    let mut refusals = [0; 16];
    for call in calls.iter().filter(|call| call.kind == kind) {
        match call.answer().done {
            Ok(_) => done += 1,
            Err((number, _)) => refusals[number as usize] += 1,
        }
    }
    println!("{kind:?}: {done} done, refusals 1 to 15 {:?}", &refusals[1..]);
}

/// Call, 0, then in 16 bits, low byte first, k, the lengths of both areas and of the five inputs; then their bytes.
fn call_bytes(call: &Call) -> Vec<u8> {
    let LentJob { circuit, test, faults, plan, k, work_len, result_len } = &call.job;
    let inputs = [circuit, test, faults, plan, &call.verdicts];
    let mut bytes = vec![call.kind.number(), 0];
    for number in [*k, *work_len, *result_len].into_iter().chain(inputs.map(Vec::len)) {
        bytes.extend(u16::try_from(number).expect("a small call").to_le_bytes());
    }
    inputs.into_iter().for_each(|input| bytes.extend(input));
    bytes
}

/// The words of the answer, the result area, and that a refused call has kept its work area.
fn line(answer: &Answer) -> String {
    let area = if answer.result.is_empty() { String::new() } else { format!(" {}", hexadecimal(&answer.result)) };
    let kept = if answer.done.is_err() { " kept" } else { "" };
    format!("{}{area}{kept}\n", answer.words())
}

fn calls() -> Vec<Call> {
    let mut random = Random(11);
    let groups = [
        (0..25).map(|_| simulate_call(&mut random)).collect(),
        (0..25).map(|_| grade_call(&mut random)).collect(),
        choosing::calls(&mut random),
        grouping::calls(&mut random),
        refused::calls(&mut random),
    ];
    groups.concat()
}

/// A job of one fault with few lines and units, and exactly enough bytes in both areas.
fn small_call(kind: Kind, random: &mut Random) -> Call {
    loop {
        let k = random.between(0, 12);
        let job = mixture::job_of_one_fault(k, random);
        if is_small(&job) {
            let mut call = Call { kind, job, verdicts: vec![] };
            call.job.result_len = result_needed(&call);
            return call;
        }
    }
}

fn is_small(job: &LentJob) -> bool {
    job.circuit.len() <= 12 * 12 && job.test.len() <= 20 && job.plan.len() <= 40
}

/// Plain simulation with a fault or without; k and plan are not looked at.
fn simulate_call(random: &mut Random) -> Call {
    let mut call = small_call(Kind::Simulate, random);
    if random.percent(40) {
        call.job.faults.clear();
    }
    (call.job.k, call.job.plan) = (random.pick(&[0, 13, 65_535]), vec![255; random.below(4)]);
    with_longer_areas(call, random)
}

/// Two faults, and a plan of sense and nonsense.
fn grade_call(random: &mut Random) -> Call {
    let mut call = small_call(Kind::Grade, random);
    call.job.faults = [call.job.faults, vec![0, 0, 0, random.below(2) as u8]].concat();
    call.job.result_len = result_needed(&call);
    with_longer_areas(call, random)
}

/// Areas of exactly enough bytes or some more.
fn with_longer_areas(mut call: Call, random: &mut Random) -> Call {
    call.job.work_len += random.pick(&[0, 0, 1, 50]);
    call.job.result_len += random.pick(&[0, 0, 1, 7]);
    call
}
