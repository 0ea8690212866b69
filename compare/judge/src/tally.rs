//! What a comparison has met: verdicts, refusals, how the pairs of Choose came about, and the runs of `random`.

use crate::calls::{Answer, Call, Kind};
use crate::choose::decided;

#[derive(Default)]
pub struct Tally {
    jobs: usize,
    damaged: usize,
    too_long: usize,
    without_faults: usize,
    /// By verdict: records, and jobs with such a record.
    verdicts: [usize; 8],
    jobs_with_verdict: [usize; 8],
    refusals: [usize; 16],
    bad_calls: usize,
    /// By call: those done, then refusals by number.
    done: [usize; 4],
    call_refusals: [[usize; 16]; 4],
    /// Calls of Choose that wrote none, fewer than k, and k pairs.
    pairs: [usize; 3],
    /// Pairs that each place in the rank decides.
    decided: [usize; 6],
    /// Runs of `random` that wrote a test, then refusals by number.
    sequences: usize,
    sequence_refusals: [usize; 18],
}

impl Tally {
    /// A job of the program and its print.
    pub fn count_job(&mut self, is_damaged: bool, print: &str) {
        self.jobs += 1;
        self.damaged += is_damaged as usize;
        self.without_faults += print.starts_with("total") as usize;
        let before = self.verdicts;
        for line in print.lines() {
            let words: Vec<&str> = line.split(' ').collect();
            let number = |position: usize| words[position].parse::<usize>().expect("a number");
            match words[0] {
                "too" => self.too_long += 1,
                "refused" => self.refusals[number(1)] += 1,
                "total" => (),
                _ => self.verdicts[number(3)] += 1,
            }
        }
        for (jobs, (before, after)) in self.jobs_with_verdict.iter_mut().zip(before.iter().zip(&self.verdicts)) {
            *jobs += (after > before) as usize;
        }
    }

    /// A call, or none if it was told by bytes that tell none.
    pub fn count_call(&mut self, call: Option<&Call>) {
        let Some(call) = call else {
            self.bad_calls += 1;
            return;
        };
        match call.answer().done {
            Ok(count) => {
                self.done[call.kind as usize] += 1;
                if call.kind == Kind::Choose {
                    self.count_pairs(call, count);
                }
            }
            Err((number, _)) => self.call_refusals[call.kind as usize][number as usize] += 1,
        }
    }

    fn count_pairs(&mut self, call: &Call, count: usize) {
        self.pairs[if count == 0 { 0 } else { 1 + (count == call.job.k) as usize }] += 1;
        for (total, here) in self.decided.iter_mut().zip(decided(&call.job)) {
            *total += here;
        }
    }

    /// A run of `random`.
    pub fn count_sequence(&mut self, answer: &Answer) {
        match answer.done {
            Ok(_) => self.sequences += 1,
            Err((number, _)) => self.sequence_refusals[number as usize] += 1,
        }
    }

    pub fn print(&self) {
        println!(
            "{} jobs, {} damaged, {} too long, {} accepted without a fault",
            self.jobs, self.damaged, self.too_long, self.without_faults
        );
        println!("records with verdicts 1 to 7: {:?}", &self.verdicts[1..]);
        println!("jobs with verdicts 1 to 7: {:?}", &self.jobs_with_verdict[1..]);
        println!("refusals 1 to 14 of the program: {:?}", &self.refusals[1..15]);
        for kind in Kind::ALL {
            let refusals = &self.call_refusals[kind as usize][1..];
            println!("{kind:?}: {} done, refusals 1 to 15 {refusals:?}", self.done[kind as usize]);
        }
        println!("bad calls: {}", self.bad_calls);
        println!("Choose wrote no pair, fewer than k, k: {:?}", self.pairs);
        println!("pairs decided by Nout, Nsv, smaller size, larger size, u, i: {:?}", self.decided);
        self.print_sequences();
    }

    fn print_sequences(&self) {
        let refusals = &self.sequence_refusals[1..];
        let refused: usize = refusals.iter().sum();
        let numbers = refusals.iter().filter(|&&count| count > 0).count();
        println!(
            "random: {} runs, {refused} refused by {numbers} different numbers, refusals 1 to 17 {refusals:?}",
            self.sequences + refused
        );
    }
}
