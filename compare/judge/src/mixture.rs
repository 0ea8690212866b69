//! Random jobs of all sizes, most of them small, with faults, plans and shapes weighted so that every verdict is met.

use crate::bytes::{fault_bytes, plan_bytes, LentJob};
use crate::choose::choices;
use crate::jobs::{self, every_fault, Shape};
use crate::random::Random;
use crate::search::{spread_over_verdicts, with_faults, Place};
use crate::{hidden, linked, odd};

/// A job that no row refuses when its areas are long enough. Three in four are tried again, a few times, if stages 1
/// and 2 end all their faults.
pub fn job(k: usize, random: &mut Random) -> LentJob {
    let tries = random.pick(&[0, 4, 4, 4]);
    let any = |random: &mut Random| some_faults(&LentJob { k, ..circuit_and_test(random) }, random);
    let mut job = any(random);
    for _ in 0..tries {
        if !faults_with_verdict(&job, &[2, 3, 4, 6, 7]).is_empty() {
            break;
        }
        job = any(random);
    }
    LentJob { plan: some_plan(&job, random), ..job }
}

/// A job with a long list of faults and a long test.
pub fn job_of_many_faults(k: usize, random: &mut Random) -> LentJob {
    let shape = if random.percent(50) { small(random) } else { middle(random) };
    let job = LentJob { k, ..shaped(shape, random.between(24, 100), random) };
    let every = every_fault(&job.circuit);
    let faults: Vec<Place> = (0..random.between(60, 400)).map(|_| random.pick(&every)).collect();
    let job = with_faults(&job, &faults);
    LentJob { plan: some_plan(&job, random), ..job }
}

/// A job of one fault, for which Choose mostly has pairs to write; in many of them one bit tells others.
pub fn job_of_one_fault(k: usize, random: &mut Random) -> LentJob {
    let any = |random: &mut Random| match random.percent(40) {
        true => some_faults(&LentJob { k, ..linked::job(time_units(random), random) }, random),
        false => job(k, random),
    };
    let mut job = any(random);
    let mut reaching = faults_with_verdict(&job, &[3, 4, 6, 7]);
    for _ in 0..random.pick(&[0, 8, 8, 8]) {
        if !reaching.is_empty() {
            break;
        }
        job = any(random);
        reaching = faults_with_verdict(&job, &[3, 4, 6, 7]);
    }
    let fault = if reaching.is_empty() { random.pick(&every_fault(&job.circuit)) } else { random.pick(&reaching) };
    LentJob { faults: fault_bytes(&[fault]), ..job }
}

/// Those of the job's faults that get one of these verdicts.
pub fn faults_with_verdict(job: &LentJob, verdicts: &[u16]) -> Vec<Place> {
    let records = job.records().expect("the job is accepted");
    let faults = job
        .faults
        .chunks_exact(4)
        .map(|fault| (fault[0] as usize + 256 * fault[1] as usize, fault[2] as usize, fault[3]));
    faults.zip(records).filter(|(_, record)| verdicts.contains(&record[0])).map(|(fault, _)| fault).collect()
}

/// A circuit alone.
pub fn circuit(random: &mut Random) -> Vec<u8> {
    circuit_and_test(random).circuit
}

/// A circuit and a test, of a size that is seldom large.
fn circuit_and_test(random: &mut Random) -> LentJob {
    match random.below(1000) {
        0..250 => odd::job(time_units(random), random),
        250..380 => LentJob { plan: vec![], ..hidden::job(random.next()) },
        380..600 => linked::job(time_units(random), random),
        600..770 => shaped(small(random), time_units(random), random),
        770..920 => shaped(holding(random), time_units(random), random),
        920..985 => shaped(middle(random), time_units(random), random),
        985..997 => shaped(wide(random), random.between(1, 5), random),
        997..999 => shaped(small(random), random.between(100, 1024), random),
        _ => shaped(large(random), random.between(1, 5), random),
    }
}

fn shaped(shape: Shape, time_units: usize, random: &mut Random) -> LentJob {
    let circuit = shape.circuit(random);
    let test = jobs::test(shape, time_units, random);
    LentJob::new(circuit, test, vec![], vec![], 0)
}

fn time_units(random: &mut Random) -> usize {
    match random.below(100) {
        0..12 => 1,
        12..85 => random.between(2, 6),
        85..97 => random.between(7, 15),
        _ => random.between(16, 40),
    }
}

fn small(random: &mut Random) -> Shape {
    Shape {
        inputs: random.between(1, 4),
        flip_flops: random.between(0, 8),
        gates: random.between(0, 20),
        outputs: random.between(1, 4),
        input_pins: random.pick(&[10, 25, 40]),
        flip_flop_pins: random.pick(&[20, 35, 50]),
        parity_gates: random.pick(&[5, 20, 50]),
        self_feeding: random.pick(&[0, 15, 50]),
        mixed: random.percent(70),
        watches: random.pick(&[0, 1, 2, 3, 4]),
    }
}

/// Flip-flops many of which hold what they have, all watched: many pairs to take, and many that are as good.
fn holding(random: &mut Random) -> Shape {
    Shape {
        flip_flops: random.between(2, 9),
        gates: random.between(2, 12),
        self_feeding: random.pick(&[40, 70, 100]),
        watches: random.between(1, 5),
        ..small(random)
    }
}

fn middle(random: &mut Random) -> Shape {
    Shape {
        inputs: random.between(1, 8),
        flip_flops: random.between(0, 16),
        gates: random.between(20, 120),
        outputs: random.between(1, 8),
        watches: random.pick(&[0, 3, 6]),
        ..small(random)
    }
}

/// Counts of inputs, flip-flops and outputs up to the limit of 256.
fn wide(random: &mut Random) -> Shape {
    let any = |random: &mut Random| random.pick(&[3, 31, 32, 33, 64, 65, 128, 250]);
    Shape {
        inputs: any(random),
        flip_flops: any(random),
        gates: random.between(0, 300),
        outputs: any(random),
        ..middle(random)
    }
}

fn large(random: &mut Random) -> Shape {
    Shape { inputs: random.between(1, 40), gates: random.between(1000, 3900), ..middle(random) }
}

/// Faults of as many verdicts as there are; or any, every one, the same again and again, or none.
fn some_faults(job: &LentJob, random: &mut Random) -> LentJob {
    let mut every = every_fault(&job.circuit);
    random.shuffle(&mut every);
    let count = random.between(1, 10);
    match random.below(100) {
        0..3 => with_faults(job, &[]),
        3..8 => with_faults(job, &every[..every.len().min(looked_at(job))]),
        8..12 => with_faults(job, &vec![every[0]; random.between(2, 80)]),
        12..25 => with_faults(job, &(0..count).map(|_| random.pick(&every)).collect::<Vec<Place>>()),
        _ => {
            every.truncate(looked_at(job));
            spread_over_verdicts(job, every, count, random)
        }
    }
}

/// The number of faults of a circuit that are graded to find some of every verdict: fewer where the job is larger.
fn looked_at(job: &LentJob) -> usize {
    let (flip_flops, time_units) = flip_flops_and_units(job);
    let size = job.circuit.len() / 12 * (flip_flops + 1) * time_units;
    (1_000_000 / size).clamp(3, 60)
}

fn flip_flops_and_units(job: &LentJob) -> (usize, usize) {
    let lines_of = |kind: u8| job.circuit.chunks_exact(12).filter(|line| line[0] == kind).count();
    (lines_of(1), job.test.len() / lines_of(0))
}

/// No pair, pairs that Choose writes for one of the faults among others, or pairs of sense and nonsense.
fn some_plan(job: &LentJob, random: &mut Random) -> Vec<u8> {
    let (flip_flops, time_units) = flip_flops_and_units(job);
    let pairs = match random.below(100) {
        0..25 => return vec![],
        25..50 => return [chosen(job, random), jobs::plan(random.below(4), time_units, flip_flops, random)].concat(),
        50..80 => random.below(2 * job.k + 4),
        80..99 => random.between(10, 60),
        _ => random.between(100, 4096),
    };
    jobs::plan(pairs, time_units, flip_flops, random)
}

/// What Choose writes for one of the faults, at times from the last to the first.
fn chosen(job: &LentJob, random: &mut Random) -> Vec<u8> {
    let faults: Vec<&[u8]> = job.faults.chunks_exact(4).collect();
    let Some(fault) = faults.get(random.below(faults.len().max(1))) else {
        return vec![];
    };
    let mut pairs = choices(&LentJob { faults: fault.to_vec(), ..job.clone() });
    if random.percent(30) {
        pairs.reverse();
    }
    plan_bytes(&pairs)
}
