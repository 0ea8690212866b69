//! The test vectors: groups of jobs, one after another, and what a test program prints for each job.

mod limits;
mod lists;
mod places;
mod rare;
mod refused;
mod words;

use crate::bytes::LentJob;
use crate::{model_jobs, s27, specimens};
use std::{fs, io, path::Path, time::Instant};

/// The groups in order.
pub fn jobs() -> Vec<LentJob> {
    let groups = [
        // The eleven specimens, and A's whole fault list.
        specimens::jobs(),
        // The small jobs of the model.
        model_jobs::jobs(),
        // s27 with all its faults under three published tests.
        s27::jobs(),
        // Faults on every sort of place.
        places::jobs(),
        // Both ways to verdict 2, and which comes first.
        rare::jobs(),
        // Empty, repeated, short and long fault lists.
        lists::jobs(),
        // Counts of bits, sequences and starting states around whole words.
        words::jobs(),
        // The limits of k, plan, L, N, I, F and O.
        limits::jobs(),
        // Refusals of every row, alone and two at once.
        refused::jobs(),
        // Small random jobs.
        places::random_jobs(),
    ];
    groups.concat()
}

/// Writes jobs.dat and stdout.
pub fn write(directory: &Path) -> io::Result<()> {
    let jobs = jobs();
    let bytes: Vec<u8> = jobs.iter().flat_map(LentJob::bytes).collect();
    let begun = Instant::now();
    let print: String = jobs.iter().map(LentJob::print).collect();
    let milliseconds = begun.elapsed().as_millis();
    fs::create_dir_all(directory)?;
    fs::write(directory.join("jobs.dat"), &bytes)?;
    fs::write(directory.join("stdout"), &print)?;
    let longest = |length: fn(&LentJob) -> usize| jobs.iter().map(length).max().unwrap_or(0);
    println!("{} jobs, jobs.dat {} bytes, stdout {} bytes", jobs.len(), bytes.len(), print.len());
    println!("longest work area {}, result area {}", longest(|job| job.work_len), longest(|job| job.result_len));
    println!("graded in {milliseconds} ms");
    print_tally(&print);
    Ok(())
}

/// How often each verdict and each refusal is printed.
fn print_tally(print: &str) {
    let mut verdicts = [0; 8];
    let mut rules = [0; 16];
    for line in print.lines() {
        let mut words = line.split(' ');
        match words.next() {
            Some("refused") => rules[words.next().and_then(|rule| rule.parse().ok()).unwrap_or(0)] += 1,
            Some("done") => (),
            Some(verdict) => verdicts[verdict.parse().unwrap_or(0)] += 1,
            None => (),
        }
    }
    println!("verdicts 1 to 7: {:?}", &verdicts[1..]);
    println!("refusals 1 to 14: {:?}", &rules[1..15]);
}
