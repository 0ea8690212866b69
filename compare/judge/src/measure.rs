//! The library's Grade beside this grader, on the same jobs in one run: first that both answer alike, then the time of each.

use crate::bench;
use crate::bytes::LentJob;
use crate::grade::grade;
use crate::random::Random;
use crate::refusals::Refusal;
use std::{hint::black_box, io, time::Instant};

/// What an exported call returns: 0, 0 and how much it did, or 1, the rule and its position.
#[repr(C)]
pub struct Answered {
    refused: usize,
    rule: usize,
    number: usize,
}

impl Answered {
    /// As this grader answers.
    pub fn result(self) -> Result<usize, Refusal> {
        match self {
            Answered { refused: 0, number, .. } => Ok(number),
            Answered { rule, number, .. } => Err((rule as u8, number)),
        }
    }
}

/// Grade as the library exports it.
#[rustfmt::skip]
pub type Exported = unsafe extern "C" fn(
    *const u8, usize, *const u8, usize, *const u8, usize, *const u8, usize, usize, *mut u8, usize, *mut u8, usize,
) -> Answered;

#[rustfmt::skip]
extern "C" {
    fn balithoomai_grade(
        circuit: *const u8, circuit_len: usize, test: *const u8, test_len: usize,
        faults: *const u8, faults_len: usize, plan: *const u8, plan_len: usize, k: usize,
        work: *mut u8, work_len: usize, result: *mut u8, result_len: usize,
    ) -> Answered;
}

/// The two areas of a job, made once.
pub struct Areas {
    pub work: Vec<u8>,
    pub result: Vec<u8>,
}

impl Areas {
    pub fn of(job: &LentJob) -> Areas {
        Areas { work: vec![0; job.work_len], result: vec![0; job.result_len] }
    }

    /// What this Grade answers; the areas hold what it leaves there.
    pub fn graded(&mut self, job: &LentJob, grade: Exported) -> Result<usize, Refusal> {
        let LentJob { circuit, test, faults, plan, k, .. } = job;
        let Areas { work, result } = self;
        // Each pointer goes with the length of the list it points to, and only the two areas are written.
        #[rustfmt::skip]
        let answered = unsafe {
            grade(
                circuit.as_ptr(), circuit.len(), test.as_ptr(), test.len(),
                faults.as_ptr(), faults.len(), plan.as_ptr(), plan.len(), *k,
                work.as_mut_ptr(), work.len(), result.as_mut_ptr(), result.len(),
            )
        };
        answered.result()
    }

    pub fn by_library(&mut self, job: &LentJob) -> Result<usize, Refusal> {
        self.graded(job, balithoomai_grade)
    }

    fn by_judge(&mut self, job: &LentJob) -> Result<usize, Refusal> {
        let LentJob { circuit, test, faults, plan, k, work_len, .. } = job;
        grade(circuit, test, faults, plan, *k, *work_len, &mut self.result)
    }
}

fn seconds(call: impl FnOnce() -> Result<usize, Refusal>) -> f64 {
    let begun = Instant::now();
    let _ = black_box(call());
    begun.elapsed().as_secs_f64()
}

/// A call of the library or of this grader on the areas of a job.
pub type Call = fn(&mut Areas, &LentJob) -> Result<usize, Refusal>;

/// Prints for each job the milliseconds of this grader and of the library, each the least of many calls by turns, and their ratio.
pub fn measure() -> io::Result<()> {
    bench::JOBS.iter().try_for_each(|(name, make)| measure_calls(name, &make(), Areas::by_library, Areas::by_judge))
}

/// The least seconds of a call of the library and of one of this grader, made by turns for so many seconds, after a look
/// that both answer alike.
pub fn least_seconds(job: &LentJob, by_library: Call, by_judge: Call, seconds_spent: f64) -> io::Result<(f64, f64)> {
    let (mut library, mut judge) = (Areas::of(job), Areas::of(job));
    if by_library(&mut library, job) != by_judge(&mut judge, job) || library.result != judge.result {
        return Err(io::Error::other("the answers differ"));
    }
    let (mut ours, mut theirs) = (f64::INFINITY, f64::INFINITY);
    let begun = Instant::now();
    while begun.elapsed().as_secs_f64() < seconds_spent || ours == f64::INFINITY {
        ours = ours.min(seconds(|| by_library(&mut library, job)));
        theirs = theirs.min(seconds(|| by_judge(&mut judge, job)));
    }
    Ok((ours, theirs))
}

/// Prints the milliseconds of both on a job of this name, and their ratio.
pub fn measure_calls(name: &str, job: &LentJob, by_library: Call, by_judge: Call) -> io::Result<()> {
    let (ours, theirs) = least_seconds(job, by_library, by_judge, 2.0)?;
    println!("{name}: {:.4} ms, library {:.4} ms, {:.2} times as fast", theirs * 1e3, ours * 1e3, theirs / ours);
    Ok(())
}

/// The milliseconds that the library takes, the least of many calls.
fn milliseconds(job: &LentJob) -> f64 {
    let mut areas = Areas::of(job);
    let begun = Instant::now();
    let mut least = f64::INFINITY;
    while begun.elapsed().as_secs_f64() < 1.0 || least == f64::INFINITY {
        least = least.min(seconds(|| areas.by_library(job)));
    }
    least * 1e3
}

/// A job of so many lines, flip-flops and units, with so many faults that stage 2 does not end.
fn hard(lines: usize, flip_flops: usize, time_units: usize, faults: usize) -> LentJob {
    let found = bench::unknown_bits(lines, flip_flops, time_units, &mut Random(3));
    let mut areas = Areas::of(&found);
    areas.by_library(&found).expect("the job is accepted");
    let records = found.faults.chunks_exact(4).zip(areas.result.chunks_exact(16));
    let hard = records.filter(|(_, record)| ![1, 5].contains(&record[0])).map(|(fault, _)| fault);
    let faults: Vec<u8> = hard.cycle().take(faults).flatten().copied().collect();
    LentJob { result_len: faults.len() * 4, faults, ..found }
}

/// Prints how the library's time grows with lines, flip-flops, time units and faults.
pub fn growth() -> io::Result<()> {
    let sizes = [
        [(250, 40, 60, 32), (500, 40, 60, 32), (1000, 40, 60, 32), (2000, 40, 60, 32)],
        [(500, 20, 60, 32), (500, 40, 60, 32), (500, 80, 60, 32), (500, 160, 60, 32)],
        [(500, 40, 30, 32), (500, 40, 60, 32), (500, 40, 120, 32), (500, 40, 240, 32)],
        [(500, 40, 60, 16), (500, 40, 60, 32), (500, 40, 60, 64), (500, 40, 60, 128)],
    ];
    for (lines, flip_flops, time_units, faults) in sizes.into_iter().flatten() {
        let job = hard(lines, flip_flops, time_units, faults);
        println!("N {lines}, F {flip_flops}, L {time_units}, {faults} faults: {:.2} ms", milliseconds(&job));
    }
    Ok(())
}
