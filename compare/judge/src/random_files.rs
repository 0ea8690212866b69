//! Random files for the program: whole jobs, and damaged ones that it refuses or finds too long.

use crate::bytes::LentJob;
use crate::damage::{break_row, fill_result_area, fill_work_area};
use crate::jobs::{self, Shape};
use crate::mixture;
use crate::program::{AREA_LEN, K};
use crate::random::Random;

/// Circuit, test, faults and plan; a missing file is none.
pub type Files = [Option<Vec<u8>>; 4];

/// The files of a job that no row refuses, unless it is too large for the areas. One in a hundred has a long list.
pub fn whole(random: &mut Random) -> Files {
    let make = if random.percent(1) { mixture::job_of_many_faults } else { mixture::job };
    files_of(make(K, random))
}

fn files_of(job: LentJob) -> Files {
    [job.circuit, job.test, job.faults, job.plan].map(Some)
}

/// Files with something broken, missing, too long, or just not too long.
pub fn damaged(random: &mut Random) -> Files {
    let mut job = mixture::job(K, random);
    match random.below(100) {
        0..60 => (0..random.pick(&[1, 1, 2])).for_each(|_| break_row(&mut job, random.between(1, 11), random)),
        60..70 => fill_work_area(&mut job, random),
        70..76 => fill_result_area(&mut job, random),
        76..78 => job = longest_test(random),
        78..90 => return with_lengths(files_of(job), random),
        _ => return with_missing(files_of(job), random),
    }
    files_of(job)
}

/// A test of exactly as many bytes as the program reads.
fn longest_test(random: &mut Random) -> LentJob {
    let inputs = random.pick(&[64, 128, 256]);
    let shape = Shape { inputs, flip_flops: random.below(3), outputs: 1, watches: 0, ..Shape::SMALL };
    jobs::job(shape, AREA_LEN / inputs, random.between(1, 3), K, random.next())
}

/// One file or two of a length around the most that the program reads.
fn with_lengths(mut files: Files, random: &mut Random) -> Files {
    for _ in 0..random.pick(&[1, 1, 2]) {
        let length = AREA_LEN + random.pick(&[0, 0, 1, 2, 4, 65_536, 100_000]);
        let file = files[random.below(4)].get_or_insert_default();
        let any = random.below(2) as u8;
        file.resize(length, any);
    }
    files
}

/// One file or two missing or empty.
fn with_missing(mut files: Files, random: &mut Random) -> Files {
    for _ in 0..random.pick(&[1, 1, 2]) {
        let missing = random.percent(70);
        files[random.below(4)] = if missing { None } else { Some(vec![]) };
    }
    files
}
