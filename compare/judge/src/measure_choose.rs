//! The library's Choose beside this grader's, on the same jobs in one run: first that both answer alike, then the time of each.

use crate::bench;
use crate::bytes::LentJob;
use crate::choose::choose;
use crate::jobs::{every_fault, job, Shape};
use crate::measure::{least_seconds, measure_calls, Answered, Areas};
use crate::mixture::faults_with_verdict;
use crate::random::Random;
use crate::refusals::Refusal;
use crate::search::with_faults;
use std::io;

#[rustfmt::skip]
extern "C" {
    fn balithoomai_choose(
        circuit: *const u8, circuit_len: usize, test: *const u8, test_len: usize,
        faults: *const u8, faults_len: usize, k: usize,
        work: *mut u8, work_len: usize, result: *mut u8, result_len: usize,
    ) -> Answered;
}

fn by_library(areas: &mut Areas, job: &LentJob) -> Result<usize, Refusal> {
    let LentJob { circuit, test, faults, k, .. } = job;
    let Areas { work, result } = areas;
    // Each pointer goes with the length of the list it points to, and only the two areas are written.
    #[rustfmt::skip]
    let answered = unsafe {
        balithoomai_choose(
            circuit.as_ptr(), circuit.len(), test.as_ptr(), test.len(), faults.as_ptr(), faults.len(), *k,
            work.as_mut_ptr(), work.len(), result.as_mut_ptr(), result.len(),
        )
    };
    answered.result()
}

fn by_judge(areas: &mut Areas, job: &LentJob) -> Result<usize, Refusal> {
    let LentJob { circuit, test, faults, k, work_len, .. } = job;
    choose(circuit, test, faults, *k, *work_len, &mut areas.result)
}

/// The job with the first of its faults that stages 1 to 4 leave open, and a result area for k pairs.
fn of_open_fault(job: LentJob) -> LentJob {
    let open = faults_with_verdict(&job, &[3, 4, 6, 7]);
    LentJob { result_len: 4 * job.k, ..with_faults(&job, &open[..1]) }
}

/// A random job of one fault: from a few lines to some hundred, from one time unit to 128.
fn any_job(random: &mut Random) -> LentJob {
    let gates = random.pick(&[2, 4, 8, 16, 32, 64, 128, 256, 512]);
    let shape = Shape {
        inputs: random.pick(&[1, 2, 4, 8, 16]),
        flip_flops: random.pick(&[0, 1, 2, 4, 8, 16, 32, 64]),
        gates,
        outputs: random.pick(&[1, 2, 4, 8]).min(gates),
        watches: random.pick(&[0, 1, 3, 8]),
        ..Shape::SMALL
    };
    let (time_units, k) = (random.pick(&[1, 2, 4, 8, 16, 32, 64, 128]), random.pick(&[1, 6, 12]));
    let found = job(shape, time_units, 1, k, random.next());
    LentJob { result_len: 4 * k, ..found }
}

/// Such a job with a fault that stages 1 to 4 leave open.
fn any_open_job(random: &mut Random) -> LentJob {
    loop {
        let found = any_job(random);
        let open = faults_with_verdict(&with_faults(&found, &every_fault(&found.circuit)), &[3, 4, 6, 7]);
        if !open.is_empty() {
            return LentJob { result_len: found.result_len, ..with_faults(&found, &[random.pick(&open)]) };
        }
    }
}

/// Prints of 300 random jobs how many times as fast the library is: the median, the least, and how often it is no slower.
fn measure_random(name: &str, make: fn(&mut Random) -> LentJob) -> io::Result<()> {
    let mut random = Random(77);
    let mut ratios = Vec::new();
    for _ in 0..300 {
        let (ours, theirs) = least_seconds(&make(&mut random), by_library, by_judge, 0.02)?;
        ratios.push(theirs / ours);
    }
    ratios.sort_by(f64::total_cmp);
    let no_slower = ratios.iter().filter(|&&ratio| ratio >= 1.0).count();
    println!(
        "{name}: {:.2} times as fast, the median; least {:.2}; {no_slower} of 300 no slower",
        ratios[150], ratios[0]
    );
    Ok(())
}

/// Prints for each job of Grade and each of the program the milliseconds of this grader and of the library, each the least of many calls by
/// turns, and their ratio; then the ratios of random jobs.
pub fn measure() -> io::Result<()> {
    for (name, make) in &bench::JOBS {
        measure_calls(name, &of_open_fault(make()), by_library, by_judge)?;
    }
    for (name, make) in &bench::PROGRAM_JOBS {
        measure_calls(&format!("program, {name}"), &of_open_fault(make()), by_library, by_judge)?;
    }
    measure_random("random jobs, open faults", any_open_job)?;
    measure_random("random jobs, any faults", any_job)
}
