//! The programs `bench` and `names` beside this reader: random texts, half of them damaged, every record, name and
//! refusal.

use crate::bench_programs::{Program, FILE};
use crate::random::Random;
use crate::refusals::Refusal;
use crate::scratch::{Run, Scratch};
use crate::{damaged_texts, random_texts};
use std::time::{Duration, Instant};
use std::{fs, io, path::PathBuf};

/// The file that is given as an argument; the one that is read without it then holds another text.
const GIVEN_FILE: &str = "given.bench";

/// A run that takes longer is ended, and differs.
const TIME_LIMIT: Duration = Duration::from_secs(10);

struct Comparison {
    programs: [(Program, PathBuf); 2],
    scratch: Scratch,
    tally: Tally,
    differences: usize,
}

/// What the texts were.
#[derive(Default)]
struct Tally {
    damaged: usize,
    accepted: usize,
    damaged_accepted: usize,
    lines: usize,
    refusals: [usize; 21],
}

/// So many texts; both programs read each, every second time from the file that they are given.
pub fn compare(bench: &str, names: &str, texts: usize, seed: u64) -> io::Result<()> {
    let begun = Instant::now();
    let programs = [(Program::Bench, fs::canonicalize(bench)?), (Program::Names, fs::canonicalize(names)?)];
    let (scratch, tally) = (Scratch::new()?, Tally::default());
    let mut comparison = Comparison { programs, scratch, tally, differences: 0 };
    let mut seeds = Random(seed);
    for n in 0..texts {
        comparison.compare_text(n, &mut Random(seeds.next()))?;
    }
    comparison.tally.print(texts);
    println!("{} differences, {:.1} s, seed {seed}", comparison.differences, begun.elapsed().as_secs_f64());
    comparison.scratch.clear()?;
    match comparison.differences {
        0 => Ok(()),
        _ => Err(io::Error::other("the programs differ from the judge")),
    }
}

impl Comparison {
    fn compare_text(&mut self, n: usize, random: &mut Random) -> io::Result<()> {
        let is_damaged = n % 4 < 2;
        let text = if is_damaged { damaged_texts::text(random) } else { random_texts::text(random) };
        let (file, arguments) = if n.is_multiple_of(2) { (FILE, &[][..]) } else { (GIVEN_FILE, &[GIVEN_FILE][..]) };
        self.scratch.put(file, Some(&text))?;
        self.tally.count(is_damaged, &Program::Bench.print(&text));
        for (program, path) in &self.programs {
            let expected = program.print(&text);
            let run = self.scratch.run_within(path, arguments, TIME_LIMIT)?;
            if program.agrees(&expected, &run) {
                continue;
            }
            self.differences += 1;
            if self.differences == 1 {
                let directory = self.scratch.keep(&[("printed", &run.print), ("errors", &run.errors)])?;
                println!(
                    "text {n} in {file}, {}; files, printed and errors in {}",
                    program.name(),
                    directory.display()
                );
                show_text(&text);
                show_difference(*program, &expected, &run);
            }
        }
        Ok(())
    }
}

/// The text lines by their numbers from 1; after a last byte 10 there is an empty one.
fn show_text(text: &[u8]) {
    for (line, bytes) in text.split(|&byte| byte == b'\n').enumerate() {
        println!("{:5}  {}", line + 1, bytes.escape_ascii());
    }
}

fn show_difference(program: Program, expected: &Result<Vec<u8>, Refusal>, run: &Run) {
    match expected {
        Ok(bytes) => println!("expected: {}", shown(program, bytes)),
        Err(refusal) => println!("expected on standard error: {}...", program.telling(*refusal)),
    }
    println!("exit code 0 {}, printed: {}", run.succeeded, shown(program, &run.print));
    println!("standard error: {}", run.errors.escape_ascii());
}

/// Records as numbers, a record a line; names as they are.
fn shown(program: Program, bytes: &[u8]) -> String {
    let lines: Vec<String> = match program {
        Program::Bench => bytes.chunks(12).map(|record| format!("{record:?}")).collect(),
        Program::Names => bytes.split(|&byte| byte == b'\n').map(|line| line.escape_ascii().to_string()).collect(),
    };
    format!("{} bytes\n    {}", bytes.len(), lines.join("\n    "))
}

impl Tally {
    fn count(&mut self, is_damaged: bool, expected: &Result<Vec<u8>, Refusal>) {
        self.damaged += is_damaged as usize;
        match expected {
            Ok(records) => {
                self.accepted += 1;
                self.damaged_accepted += is_damaged as usize;
                self.lines += records.len() / 12;
            }
            Err((number, _)) => self.refusals[*number as usize] += 1,
        }
    }

    fn print(&self, texts: usize) {
        println!(
            "{texts} texts, {} damaged; {} accepted, {} of them damaged, with {} lines",
            self.damaged, self.accepted, self.damaged_accepted, self.lines
        );
        let refused = self.refusals.iter().enumerate().filter(|(_, &count)| count > 0);
        let words: Vec<String> = refused.map(|(number, count)| format!("{count} by {number}")).collect();
        println!("refused: {}", words.join(", "));
    }
}
