//! The library's Grade beside that of an earlier commit, on the same jobs in one run: first that both answer alike, then
//! the time of each.

use crate::bench;
use crate::bytes::LentJob;
use crate::measure::{measure_calls, Answered, Areas};
use crate::refusals::Refusal;
use std::io;

#[rustfmt::skip]
extern "C" {
    /// `balithoomai_grade` of the earlier commit.
    fn earlier_grade(
        circuit: *const u8, circuit_len: usize, test: *const u8, test_len: usize,
        faults: *const u8, faults_len: usize, plan: *const u8, plan_len: usize, k: usize,
        work: *mut u8, work_len: usize, result: *mut u8, result_len: usize,
    ) -> Answered;
}

fn by_earlier(areas: &mut Areas, job: &LentJob) -> Result<usize, Refusal> {
    areas.graded(job, earlier_grade)
}

/// Prints for each job the milliseconds of the earlier library and of this one, each the least of many calls by turns,
/// and their ratio.
pub fn measure() -> io::Result<()> {
    println!("the earlier library, then this one");
    bench::JOBS.iter().try_for_each(|(name, make)| measure_calls(name, &make(), Areas::by_library, by_earlier))
}
