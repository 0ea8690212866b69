//! A grader of stuck faults written straight from the scope, its test vectors, the comparison of the programs with it,
//! and jobs for measuring speed.

mod bench;
mod bench_programs;
mod bench_text;
mod bytes;
mod call_vectors;
mod calls;
mod choose;
mod circuit;
mod compare;
mod compare_bench;
mod counter;
mod damage;
mod damaged_texts;
mod generate;
mod generate_vectors;
mod grade;
mod group;
mod hidden;
mod implication;
mod jobs;
mod linked;
#[cfg(feature = "library")]
mod measure;
#[cfg(feature = "library")]
mod measure_bench;
#[cfg(feature = "earlier")]
mod measure_beside;
#[cfg(feature = "library")]
mod measure_choose;
mod mixture;
mod model_jobs;
mod odd;
mod play;
mod probe;
mod program;
mod random;
mod random_calls;
mod random_files;
mod random_names;
mod random_sequences;
mod random_texts;
mod refusals;
mod s27;
mod samples;
mod scratch;
mod search;
mod sequence;
mod simulate;
mod simulation;
mod specimens;
mod stages;
mod tally;
mod text_line;
mod turns;
mod vectors;

use bench_programs::Program;
use bytes::{print_record, LentJob};
use choose::choose;
use program::FILES;
use std::{env, fs, io, path::Path, process::ExitCode};

const USAGE: &str = "usage: judge specimens | vectors DIR | call-vectors DIR | generate-vectors DIR | grade DIR K \
    | choose DIR K | bench-jobs DIR | sample-jobs DIR | compare-programs GRADER PROBE RANDOM JOBS SEED \
    | compare-bench BENCH NAMES TEXTS SEED | measure-programs GRADER RANDOM | play-grader | play-probe \
    | play-random SEED UNITS | play-bench [FILE] | play-names [FILE]; \
    with the library also measure | measure-choose | growth | bench-growth, and with an earlier one measure-beside";

fn main() -> ExitCode {
    let arguments: Vec<String> = env::args().skip(1).collect();
    let words: Vec<&str> = arguments.iter().map(String::as_str).collect();
    let done = match words[..] {
        ["specimens"] => check_specimens(),
        ["vectors", directory] => vectors::write(Path::new(directory)),
        ["call-vectors", directory] => call_vectors::write(Path::new(directory)),
        ["generate-vectors", directory] => generate_vectors::write(Path::new(directory)),
        ["sample-jobs", directory] => samples::write(Path::new(directory)),
        ["bench-jobs", directory] => bench::write(Path::new(directory)),
        #[cfg(feature = "library")]
        ["measure"] => measure::measure(),
        #[cfg(feature = "library")]
        ["measure-choose"] => measure_choose::measure(),
        #[cfg(feature = "library")]
        ["growth"] => measure::growth(),
        #[cfg(feature = "library")]
        ["bench-growth"] => measure_bench::growth(),
        #[cfg(feature = "earlier")]
        ["measure-beside"] => measure_beside::measure(),
        ["compare-programs", grader, probe, random, jobs, seed] => {
            compare_programs([grader, probe, random], jobs, seed)
        }
        ["compare-bench", bench, names, texts, seed] => compare_bench_programs(bench, names, texts, seed),
        ["measure-programs", grader, random] => turns::measure(grader, random),
        ["play-grader"] => play::grader(),
        ["play-probe"] => play::probe(),
        ["play-random", seed, units] => play::random(seed, units),
        ["play-bench", ref file @ ..] => play::of_text(Program::Bench, file),
        ["play-names", ref file @ ..] => play::of_text(Program::Names, file),
        ["grade", directory, k] => grade_files(Path::new(directory), k),
        ["choose", directory, k] => choose_files(Path::new(directory), k),
        _ => Err(io::Error::other(USAGE)),
    };
    match done {
        Ok(()) => ExitCode::SUCCESS,
        Err(error) => {
            eprintln!("{error}");
            ExitCode::FAILURE
        }
    }
}

/// Holds the grader to the eleven verdicts of the scope and to the stated results of the model's jobs.
fn check_specimens() -> io::Result<()> {
    let differences = [specimens::differences(), model_jobs::differences()].concat();
    differences.iter().for_each(|difference| println!("{difference}"));
    if differences.is_empty() {
        println!(
            "all eleven specimen verdicts, the print of A and all {} jobs of the model agree",
            model_jobs::jobs().len()
        );
        return Ok(());
    }
    Err(io::Error::other("some verdicts differ"))
}

fn compare_programs(programs: [&str; 3], jobs: &str, seed: &str) -> io::Result<()> {
    let [jobs, seed] = [jobs, seed].map(|number| number.parse::<u64>().map_err(io::Error::other));
    compare::compare(programs, jobs? as usize, seed?)
}

fn compare_bench_programs(bench: &str, names: &str, texts: &str, seed: &str) -> io::Result<()> {
    let [texts, seed] = [texts, seed].map(|number| number.parse::<u64>().map_err(io::Error::other));
    compare_bench::compare(bench, names, texts? as usize, seed?)
}

/// The job in a directory; a missing file is empty.
fn job_of_files(directory: &Path, k: &str) -> io::Result<LentJob> {
    let k = k.parse().map_err(io::Error::other)?;
    let file = |name: &str| fs::read(directory.join(name)).unwrap_or_default();
    let [circuit, test, faults, plan] = FILES.map(file);
    Ok(LentJob { work_len: usize::MAX, ..LentJob::new(circuit, test, faults, plan, k) })
}

/// Prints the records of the job in a directory, or the refusal.
fn grade_files(directory: &Path, k: &str) -> io::Result<()> {
    match job_of_files(directory, k)?.records() {
        Ok(records) => records.iter().for_each(|record| print!("{}", print_record(record))),
        Err((rule, position)) => println!("refused {rule} {position}"),
    }
    Ok(())
}

/// Prints for each fault of the job in a directory the pairs that Choose writes for it alone, or the refusal.
fn choose_files(directory: &Path, k: &str) -> io::Result<()> {
    let job = job_of_files(directory, k)?;
    for fault in job.faults.chunks(4) {
        let mut chosen = vec![0; 4 * job.k];
        match choose(&job.circuit, &job.test, fault, job.k, job.work_len, &mut chosen) {
            Ok(count) => println!("{}", print_choice(fault, &chosen[..4 * count])),
            Err((rule, position)) => println!("refused {rule} {position}"),
        }
    }
    Ok(())
}

/// Line, pin and value of the fault, then each pair as time and flip-flop index in brackets.
fn print_choice(fault: &[u8], pairs: &[u8]) -> String {
    let number = |field: &[u8]| u16::from_le_bytes([field[0], field[1]]);
    let mut text = format!("{} {} {}:", number(fault), fault[2], fault[3]);
    for pair in pairs.chunks_exact(4) {
        text += &format!(" ({}, {})", number(pair), number(&pair[2..]));
    }
    text
}
