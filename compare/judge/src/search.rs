//! What a search of random jobs asks of them: which verdicts their faults get, and how stages 3 and 4 end.

use crate::bytes::{fault_bytes, LentJob};
use crate::circuit::Fault;
use crate::jobs::every_fault;
use crate::random::Random;
use crate::refusals::{read_for_grade, Job};
use crate::stages::{Implied, Stages};

/// A fault as line, pin and value.
pub type Place = (usize, usize, u8);

/// The job with these faults and a result area of exactly enough bytes.
pub fn with_faults(job: &LentJob, faults: &[Place]) -> LentJob {
    let result_len = 16 * faults.len();
    LentJob { faults: fault_bytes(faults), result_len, ..job.clone() }
}

/// Every fault of the circuit with its record.
pub fn every_record(job: &LentJob) -> Vec<(Place, [u16; 9])> {
    records_of(job, every_fault(&job.circuit))
}

fn records_of(job: &LentJob, faults: Vec<Place>) -> Vec<(Place, [u16; 9])> {
    let records = with_faults(job, &faults).records().expect("the job is accepted");
    faults.into_iter().zip(records).collect()
}

/// The faults with their records, of those with equal records only the first.
pub fn distinct_records(job: &LentJob, wanted: impl Fn(&[u16; 9]) -> bool) -> Vec<(Place, [u16; 9])> {
    let mut found: Vec<(Place, [u16; 9])> = Vec::new();
    for (fault, record) in every_record(job) {
        if wanted(&record) && found.iter().all(|(_, other)| *other != record) {
            found.push((fault, record));
        }
    }
    found
}

/// The faults whose record is as wanted.
pub fn faults_with(job: &LentJob, wanted: impl Fn(&[u16; 9]) -> bool) -> Vec<Place> {
    every_record(job).into_iter().filter(|(_, record)| wanted(record)).map(|(fault, _)| fault).collect()
}

/// So many faults, each verdict that some fault gets being as likely as another.
/// Of a large circuit only some faults are looked at.
pub fn faults_of_all_verdicts(job: &LentJob, count: usize, random: &mut Random) -> LentJob {
    let mut faults = every_fault(&job.circuit);
    if faults.len() > 4000 {
        random.shuffle(&mut faults);
        faults.truncate(300);
    }
    spread_over_verdicts(job, faults, count, random)
}

/// So many of these faults, repeats among them, each verdict that some of them get being as likely as another.
pub fn spread_over_verdicts(job: &LentJob, faults: Vec<Place>, count: usize, random: &mut Random) -> LentJob {
    let mut by_verdict: Vec<Vec<Place>> = vec![Vec::new(); 8];
    for (fault, record) in records_of(job, faults) {
        by_verdict[record[0] as usize].push(fault);
    }
    by_verdict.retain(|faults| !faults.is_empty());
    let mut one = || {
        let verdict = random.below(by_verdict.len());
        random.pick(&by_verdict[verdict])
    };
    with_faults(job, &(0..count).map(|_| one()).collect::<Vec<_>>())
}

/// The job with these faults first and then so many more, mixed.
pub fn with_more_faults(job: &LentJob, first: &[Place], count: usize, random: &mut Random) -> LentJob {
    let more = faults_of_all_verdicts(job, count, random).faults;
    let faults = [fault_bytes(first), more].concat();
    LentJob { result_len: 4 * faults.len(), faults, ..job.clone() }
}

/// The number of verdicts that faults of the circuit get.
pub fn verdicts(job: &LentJob) -> usize {
    let records = every_record(job);
    (1..=7).filter(|&verdict| records.iter().any(|(_, record)| record[0] == verdict)).count()
}

/// What stages 3 and 4 find for the job's first fault.
pub fn implied(job: &LentJob) -> Option<Implied> {
    let read = read_job(job);
    Stages::new(&read).implied(read.faults[0])
}

/// For the job's first fault, the most state bits of which stage 3 tries both values at one unit, and the number
/// of pairs with one value marked.
pub fn trials(job: &LentJob) -> (usize, usize) {
    let read = read_job(job);
    let mut stages = Stages::new(&read);
    let Some(implied) = stages.implied(read.faults[0]) else {
        return (0, 0);
    };
    let most_bits = (1..read.time_units).map(|u| stages.bits_tried(u)).max();
    (most_bits.unwrap_or(0), implied.one_marked)
}

/// The pairs of which stage 3 tries both values, over all faults of the job that reach it.
pub fn pairs_tried(job: &LentJob) -> usize {
    let read = read_job(job);
    let mut stages = Stages::new(&read);
    let mut tried = |&fault: &Fault| match stages.reaches_stage_3(fault) {
        true => (1..read.time_units).map(|u| stages.bits_tried(u)).sum(),
        false => 0,
    };
    read.faults.iter().map(&mut tried).sum()
}

/// Those of the job's faults that stage 1 ends.
pub fn faults_that_stage_1_ends(job: &LentJob) -> Vec<Place> {
    faults_that(job, |stages, fault| stages.stage_1_ends(fault))
}

/// Those of the job's faults that reach stage 3.
pub fn faults_that_reach_stage_3(job: &LentJob) -> Vec<Place> {
    faults_that(job, |stages, fault| stages.reaches_stage_3(fault))
}

fn faults_that(job: &LentJob, holds: impl Fn(&mut Stages, Fault) -> bool) -> Vec<Place> {
    let read = read_job(job);
    let mut stages = Stages::new(&read);
    let found = read.faults.iter().filter(|&&fault| holds(&mut stages, fault));
    found.map(|fault| (fault.line, fault.pin, fault.value)).collect()
}

fn read_job(job: &LentJob) -> Job<'_> {
    let LentJob { circuit, test, faults, plan, .. } = job;
    read_for_grade(circuit, test, faults, plan, job.k, job.work_len, job.result_len).expect("the job is accepted")
}
