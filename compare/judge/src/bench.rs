//! Larger jobs for measuring speed, each as a directory of four files; the verdicts of each are counted.

use crate::bytes::{plan_bytes, LentJob};
use crate::jobs::{every_fault, job, Shape};
use crate::program::K;
use crate::random::Random;
use crate::search::{
    faults_of_all_verdicts, faults_that_reach_stage_3, faults_that_stage_1_ends, pairs_tried, with_faults, Place,
};
use std::{fs, io, path::Path, time::Instant};

type Maker = fn() -> LentJob;

/// The jobs, by name.
pub const JOBS: [(&str, Maker); 9] = [
    ("stage3_small", || many_trials(250, 30, 60, 40, 1)),
    ("stage3_middle", || many_trials(500, 50, 120, 30, 1)),
    ("stage3_large", || many_trials(1000, 80, 200, 20, 2)),
    ("stage1", || first_stage(200, 2000, 500)),
    ("tiny", tiny),
    ("small", || many_trials(40, 4, 6, 10, 1)),
    ("stage5", || many_sequences(24, 12, usize::MAX)),
    ("stage6", || many_starts(12, 500, usize::MAX)),
    ("outputs", || repeated(many_outputs(3, 100), 10)),
];

/// The jobs for the program, by name: k is its own, the work area is no longer than the one it lends, and but for the
/// last they take long enough that the start of a process is little of it.
pub const PROGRAM_JOBS: [(&str, Maker); 5] = [
    ("stage3", || many_trials(500, 50, 60, 60, 1)),
    ("stage1", || repeated(first_stage(75, 4000, 400), 10)),
    ("stage5", || repeated(many_sequences(8, K, 1_000), 40)),
    ("stage6", || repeated(many_starts(K, 30, 800), 100)),
    ("tiny", tiny),
];

/// Writes every job, those for the program to the folder `program`, and prints its size, k, verdicts and the time this
/// grader takes.
pub fn write(directory: &Path) -> io::Result<()> {
    write_jobs(directory, &JOBS)?;
    write_jobs(&directory.join("program"), &PROGRAM_JOBS)
}

fn write_jobs(directory: &Path, jobs: &[(&str, Maker)]) -> io::Result<()> {
    for (name, make) in jobs {
        let job = make();
        write_files(&directory.join(name), &job)?;
        report(name, &job);
    }
    Ok(())
}

pub fn write_files(directory: &Path, job: &LentJob) -> io::Result<()> {
    fs::create_dir_all(directory)?;
    let files = [("circuit", &job.circuit), ("test", &job.test), ("faults", &job.faults), ("plan", &job.plan)];
    files.iter().try_for_each(|(name, bytes)| fs::write(directory.join(format!("{name}.dat")), bytes))
}

fn report(name: &str, job: &LentJob) {
    let begun = Instant::now();
    let records = job.records().expect("the job is accepted");
    let milliseconds = begun.elapsed().as_secs_f64() * 1000.0;
    let lines_of = |kind: u8| job.circuit.chunks_exact(12).filter(|record| record[0] == kind).count();
    let (lines, inputs, flip_flops) = (job.circuit.len() / 12, lines_of(0), lines_of(1));
    let time_units = job.test.len() / inputs;
    let verdicts: Vec<usize> =
        (1..=7).map(|verdict| records.iter().filter(|record| record[0] == verdict).count()).collect();
    let most_taken = records.iter().map(|record| record[1]).max().unwrap_or(0);
    println!(
        "{name}: N {lines}, I {inputs}, F {flip_flops}, L {time_units}, k {}, {} faults, most taken {most_taken}, \
         verdicts 1 to 7 {verdicts:?}, {milliseconds:.1} ms",
        job.k,
        records.len()
    );
}

/// A circuit of so many lines in which many bits stay unknown, with all its faults in any order.
pub fn unknown_bits(lines: usize, flip_flops: usize, time_units: usize, random: &mut Random) -> LentJob {
    let (inputs, watches) = (8, 20);
    let shape = Shape {
        inputs,
        flip_flops,
        gates: lines - inputs - flip_flops - watches - 1,
        outputs: 6,
        input_pins: 10,
        flip_flop_pins: 40,
        parity_gates: 30,
        self_feeding: 5,
        mixed: true,
        watches,
    };
    some_faults(&job(shape, time_units, 1, 6, random.next()), 4000, random)
}

/// Such a circuit, with so many faults, of which four in five reach stage 3.
fn many_trials(lines: usize, flip_flops: usize, time_units: usize, faults: usize, seed: u64) -> LentJob {
    let mut random = Random(seed);
    let found = unknown_bits(lines, flip_flops, time_units, &mut random);
    let mut reaching = faults_that_reach_stage_3(&found);
    reaching.truncate(faults * 4 / 5);
    with_any_faults(&found, reaching, faults, &mut random)
}

/// The job with so many faults of its circuit, in any order.
fn some_faults(job: &LentJob, count: usize, random: &mut Random) -> LentJob {
    let mut faults = every_fault(&job.circuit);
    random.shuffle(&mut faults);
    faults.truncate(count);
    with_faults(job, &faults)
}

/// These faults, filled up with any to so many, in any order.
fn with_any_faults(job: &LentJob, mut chosen: Vec<Place>, faults: usize, random: &mut Random) -> LentJob {
    let every = every_fault(&job.circuit);
    while chosen.len() < faults {
        chosen.push(random.pick(&every));
    }
    random.shuffle(&mut chosen);
    with_faults(job, &chosen)
}

/// Flip-flops that inputs control, and so many faults, most of which show in the plain response, found by looking at
/// some more.
fn first_stage(time_units: usize, looked_at: usize, faults: usize) -> LentJob {
    let mut random = Random(600);
    let shape = Shape {
        inputs: 30,
        flip_flops: 40,
        gates: 530,
        outputs: 40,
        input_pins: 35,
        flip_flop_pins: 15,
        parity_gates: 10,
        self_feeding: 0,
        mixed: true,
        watches: 0,
    };
    let found = job(shape, time_units, 1, 6, random.next());
    let mut shown = faults_that_stage_1_ends(&some_faults(&found, looked_at, &mut random));
    shown.truncate(faults * 84 / 100);
    with_any_faults(&found, shown, faults, &mut random)
}

fn tiny() -> LentJob {
    let mut random = Random(8);
    let shape = Shape { inputs: 1, flip_flops: 2, gates: 4, outputs: 1, watches: 2, ..Shape::SMALL };
    let found = job(shape, 4, 1, 6, random.next());
    faults_of_all_verdicts(&found, 4, &mut random)
}

/// Ten faults, most of which take k pairs, with sequences most of which end late; stage 3 tries no more than so many
/// pairs in all.
fn many_sequences(flip_flops: usize, k: usize, most_tried: usize) -> LentJob {
    let mut random = Random(12);
    let shape = Shape { inputs: 6, flip_flops, gates: 150, self_feeding: 35, watches: 8, ..Shape::SMALL };
    loop {
        let mut found = job(shape, 40, 1, k, random.next());
        mask_from(&mut found, 7, 25);
        let pairs: Vec<_> = (0..400).map(|_| (random.below(30), random.below(flip_flops))).collect();
        found.plan = plan_bytes(&pairs);
        let mut reaching = faults_that_reach_stage_3(&some_faults(&found, 1500, &mut random));
        reaching.truncate(10);
        let found = with_faults(&found, &reaching);
        let records = found.records().expect("the job is accepted");
        let taking = records.iter().filter(|record| record[1] as usize == k);
        if taking.count() >= 8 && pairs_tried(&found) <= most_tried {
            return found;
        }
    }
}

/// Ten faults, for most of which all starting states are tried or those up to a late one, over many units; stage 3
/// tries no more than so many pairs in all.
fn many_starts(flip_flops: usize, late: u16, most_tried: usize) -> LentJob {
    let mut random = Random(13);
    let shape = Shape { inputs: 6, flip_flops, gates: 120, self_feeding: 30, watches: 8, ..Shape::SMALL };
    loop {
        let mut found = job(shape, 40, 1, flip_flops, random.next());
        mask_from(&mut found, 7, 25);
        found.plan.clear();
        let mut reaching = faults_that_reach_stage_3(&some_faults(&found, 1500, &mut random));
        reaching.truncate(10);
        let found = with_faults(&found, &reaching);
        let records = found.records().expect("the job is accepted");
        let trying = records.iter().filter(|record| record[0] == 4 || record[7] > late);
        if trying.count() >= 7 && pairs_tried(&found) <= most_tried {
            return found;
        }
    }
}

/// As many outputs as there may be, over as many time units, and so many faults with something left to show; stage 3
/// tries no more than so many pairs in all.
fn many_outputs(faults: usize, most_tried: usize) -> LentJob {
    let mut random = Random(256);
    let shape = Shape {
        inputs: 30,
        flip_flops: 20,
        gates: 350,
        outputs: 256,
        input_pins: 35,
        flip_flop_pins: 15,
        parity_gates: 10,
        self_feeding: 0,
        mixed: true,
        watches: 0,
    };
    loop {
        let found = job(shape, 1024, 1, 6, random.next());
        let mut reaching = faults_that_reach_stage_3(&some_faults(&found, 400, &mut random));
        reaching.truncate(faults);
        let found = with_faults(&found, &reaching);
        if reaching.len() == faults && pairs_tried(&found) <= most_tried {
            return found;
        }
    }
}

/// The job with its list of faults so many times over.
fn repeated(job: LentJob, times: usize) -> LentJob {
    LentJob { faults: job.faults.repeat(times), result_len: job.result_len * times, ..job }
}

/// Holds the last input at 0 before this unit and at 1 from it on.
fn mask_from(job: &mut LentJob, inputs: usize, unit: usize) {
    for (u, record) in job.test.chunks_exact_mut(inputs).enumerate() {
        record[inputs - 1] = (u >= unit) as u8;
    }
}
