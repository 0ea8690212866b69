//! The jobs of the folders samples/larger and samples/six, with the list that the program prints for each.

use crate::bench::write_files;
use crate::bytes::{plan_bytes, LentJob};
use crate::choose::choices;
use crate::counter::{circuit, Widths};
use crate::jobs::every_fault;
use crate::mixture::faults_with_verdict;
use crate::program::{self, K};
use crate::random::Random;
use crate::search::with_faults;
use std::{fs, io, path::Path};

struct Sample {
    name: &'static str,
    widths: Widths,
    time_units: usize,
    /// The units before the first that shows its outputs.
    hidden: usize,
    seed: u64,
    /// Faults of pins beside those of lines.
    pins: bool,
    /// The k with which Choose makes the plan.
    pairs: usize,
}

const SAMPLES: [Sample; 2] = [
    Sample {
        name: "larger",
        widths: Widths { counter: 13, shift: 11 },
        time_units: 47,
        hidden: 3,
        seed: 2,
        pins: false,
        pairs: K,
    },
    Sample {
        name: "six",
        widths: Widths { counter: 2, shift: 2 },
        time_units: 24,
        hidden: 3,
        seed: 25,
        pins: true,
        pairs: 3,
    },
];

/// Writes each job to a folder of its name, and beside it the list.
pub fn write(directory: &Path) -> io::Result<()> {
    for sample in &SAMPLES {
        let (folder, job) = (directory.join(sample.name), sample.job());
        write_files(&folder, &job)?;
        fs::write(folder.join("expected.txt"), program::print([&job.circuit, &job.test, &job.faults, &job.plan]))?;
    }
    Ok(())
}

impl Sample {
    /// The plan is what Choose writes for the first fault that stages 1 to 4 leave open.
    fn job(&self) -> LentJob {
        let mut job = LentJob::new(circuit(self.widths), self.test(), vec![], vec![], K);
        let mut faults = every_fault(&job.circuit);
        faults.retain(|&(_, pin, _)| pin == 0 || self.pins);
        job = with_faults(&job, &faults);
        let open = faults_with_verdict(&job, &[3, 4, 6, 7]);
        let choosing = LentJob { k: self.pairs, ..with_faults(&job, &open[..1]) };
        LentJob { plan: plan_bytes(&choices(&choosing)), ..job }
    }

    /// A reset now and then, loads in the last quarter, much counting and shifting; the outputs are hidden at first.
    fn test(&self) -> Vec<u8> {
        let mut random = Random(self.seed);
        let mut test = Vec::new();
        for u in 0..self.time_units {
            let reset = u == 0 || u % 16 == 15;
            let load = u >= self.time_units * 3 / 4 && u % 4 == 1;
            let [count, shift, serial] = [70, 60, 50].map(|chance| random.percent(chance));
            let show = u >= self.hidden;
            test.extend([reset, load, count, shift, serial, show].map(u8::from));
            test.extend((0..self.widths.counter).map(|_| random.percent(50) as u8));
        }
        test
    }
}

#[cfg(test)]
mod tests {
    use super::*;

    #[test]
    fn each_job_shows_every_verdict_that_its_flip_flops_allow() {
        for (sample, allowed) in SAMPLES.iter().zip([vec![1, 2, 3, 5, 7], vec![1, 2, 3, 4, 5, 6]]) {
            let records = sample.job().records().expect("the job is accepted");
            let mut verdicts: Vec<u16> = records.iter().map(|record| record[0]).collect();
            verdicts.sort();
            verdicts.dedup();
            assert_eq!(verdicts, allowed);
        }
    }
}
