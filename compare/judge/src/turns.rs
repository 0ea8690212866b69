//! The programs and this grader by turns, each as a process on the same files: that both print the same, and the time
//! that each takes, its start and its reading of files included.

use crate::bench::PROGRAM_JOBS;
use crate::bytes::{circuit_bytes, LentJob, Line};
use crate::program::FILES;
use crate::scratch::{Run, Scratch};
use std::path::{Path, PathBuf};
use std::{env, fs, io, time::Instant};

/// How often each program is run on a job, after one run that is not timed.
const TURNS: usize = 11;

/// A program with its arguments, and the milliseconds of its runs.
struct Player {
    program: PathBuf,
    arguments: &'static [&'static str],
    times: Vec<f64>,
}

/// The test that fills the area of the program `random`: 256 time units of 256 inputs.
const INPUTS: [Line; 256] = [(0, 1, &[]); 256];
const FULL: &[&str] = &["0xACE1", "256"];
const PLAY_FULL: &[&str] = &["play-random", "0xACE1", "256"];

/// Prints for each job its size, the milliseconds of both programs, least and median, and their ratio.
pub fn measure(grader: &str, random: &str) -> io::Result<()> {
    println!("milliseconds, least and median of {TURNS} runs by turns");
    let (grader, random, judge) = (fs::canonicalize(grader)?, fs::canonicalize(random)?, env::current_exe()?);
    let mut scratch = Scratch::new()?;
    for (name, make) in PROGRAM_JOBS {
        let job = make();
        for (file, bytes) in FILES.into_iter().zip([&job.circuit, &job.test, &job.faults, &job.plan]) {
            scratch.put(file, Some(bytes))?;
        }
        let players = [Player::new(&grader, &[]), Player::new(&judge, &["play-grader"])];
        let lines = job.faults.len() / 4 + 1;
        let ratio = take_turns(&scratch, |print| print.iter().filter(|&&byte| byte == b'\n').count() == lines, players)
            .map_err(|error| io::Error::other(format!("{name}: {error}")))?;
        println!("{name}: {}: {ratio}", size(&job));
    }
    scratch.put(FILES[0], Some(&circuit_bytes(&INPUTS)))?;
    let players = [Player::new(&random, FULL), Player::new(&judge, PLAY_FULL)];
    println!("random: 65536 bytes: {}", take_turns(&scratch, |print| print.len() == 65_536, players)?);
    scratch.clear()
}

/// Runs both once and then by turns; all runs print the same, and what an accepted job does. Both times and their ratio.
fn take_turns(scratch: &Scratch, accepted: impl Fn(&[u8]) -> bool, mut players: [Player; 2]) -> io::Result<String> {
    let expected = players[1].run(scratch)?;
    if !accepted(&expected.print) {
        return Err(io::Error::other("the job is refused"));
    }
    if players[0].run(scratch)? != expected || !expected.succeeded {
        return Err(io::Error::other("the prints differ"));
    }
    players.iter_mut().for_each(|player| player.times.clear());
    for _ in 0..TURNS {
        for player in &mut players {
            if player.run(scratch)? != expected {
                return Err(io::Error::other("a run prints something else"));
            }
        }
    }
    Ok(ratio(&players[0], &players[1]))
}

impl Player {
    fn new(program: &Path, arguments: &'static [&'static str]) -> Player {
        Player { program: program.to_path_buf(), arguments, times: Vec::new() }
    }

    fn run(&mut self, scratch: &Scratch) -> io::Result<Run> {
        let begun = Instant::now();
        let run = scratch.run(&self.program, self.arguments)?;
        self.times.push(begun.elapsed().as_secs_f64() * 1e3);
        Ok(run)
    }

    /// The least time and the median.
    fn least_and_median(&self) -> [f64; 2] {
        let mut times = self.times.clone();
        times.sort_by(f64::total_cmp);
        [times[0], times[times.len() / 2]]
    }
}

fn size(job: &LentJob) -> String {
    let lines = job.circuit.len() / 12;
    let inputs = job.circuit.chunks_exact(12).filter(|line| line[0] == 0).count();
    format!("{lines} lines, {} units, {} faults", job.test.len() / inputs, job.faults.len() / 4)
}

fn ratio(program: &Player, judge: &Player) -> String {
    let ([ours, our_median], [theirs, their_median]) = (program.least_and_median(), judge.least_and_median());
    format!(
        "judge {theirs:.2} and {their_median:.2}, program {ours:.2} and {our_median:.2}, ratio {:.1} and {:.1}",
        theirs / ours,
        their_median / our_median
    )
}
