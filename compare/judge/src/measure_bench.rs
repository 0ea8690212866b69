//! The library's reader of bench text beside this one, on texts of more and more definitions in one run: first that
//! both answer alike, then the time of each.

use crate::bench_text::read;
use crate::measure::Answered;
use crate::random::Random;
use crate::refusals::Refusal;
use std::fmt::Write;
use std::{hint::black_box, io, time::Instant};

extern "C" {
    fn balithoomai_read_bench(text: *const u8, text_len: usize, result: *mut u8, result_len: usize) -> Answered;
}

const DEFINITIONS: [usize; 3] = [1_000, 2_000, 4_000];

/// The result area of every call: as many bytes as the longest circuit has.
const AREA_LEN: usize = 49_152;

/// For how many seconds both are called by turns.
const SECONDS: f64 = 1.0;

/// The name of a line; numbers are shuffled, so that neighbours in the text are not so in number.
type Naming = fn(usize) -> String;

const NAMINGS: [(&str, Naming); 2] = [
    ("names as G123gat", |number| format!("G{number}gat")),
    ("names of 32 bytes, 28 of them the same", |number| format!("same_first_28_bytes_of_names{number:04}")),
];

type Reader = fn(&[u8], &mut [u8]) -> Result<usize, Refusal>;

fn by_library(text: &[u8], result: &mut [u8]) -> Result<usize, Refusal> {
    // Each pointer goes with the length of the list it points to, and only the result is written.
    unsafe { balithoomai_read_bench(text.as_ptr(), text.len(), result.as_mut_ptr(), result.len()) }.result()
}

/// Prints for each naming and number of definitions the nanoseconds of this reader and of the library's, each the least
/// of many calls by turns, and their ratio.
pub fn growth() -> io::Result<()> {
    for (words, naming) in NAMINGS {
        println!("{words}:");
        for definitions in DEFINITIONS {
            measure(definitions, &text(definitions, naming, &mut Random(5)))?;
        }
    }
    Ok(())
}

fn measure(definitions: usize, text: &[u8]) -> io::Result<()> {
    let [mut library, mut judge] = [(); 2].map(|()| vec![0; AREA_LEN]);
    let answers = [by_library(text, &mut library), read(text, &mut judge)];
    if answers != [Ok(definitions); 2] || library != judge {
        return Err(io::Error::other(format!("the answers differ or are no circuit: {answers:?}")));
    }
    let (mut ours, mut theirs) = (f64::INFINITY, f64::INFINITY);
    let begun = Instant::now();
    while begun.elapsed().as_secs_f64() < SECONDS || ours == f64::INFINITY {
        ours = ours.min(nanoseconds(by_library, text, &mut library));
        theirs = theirs.min(nanoseconds(read, text, &mut judge));
    }
    println!(
        "{definitions} definitions, {} bytes: judge {theirs:.0} ns, library {ours:.0} ns, {:.2} times as fast",
        text.len(),
        theirs / ours
    );
    Ok(())
}

fn nanoseconds(reader: Reader, text: &[u8], result: &mut [u8]) -> f64 {
    let begun = Instant::now();
    let _ = black_box(reader(text, result));
    begun.elapsed().as_secs_f64() * 1e9
}

/// Inputs, outputs, flip-flops and gates in this order, as most such texts have them: one definition in 20 is an input,
/// but no more than 200, one in 20 a flip-flop, as many outputs, and the gates have two pins on average.
fn text(definitions: usize, naming: Naming, random: &mut Random) -> Vec<u8> {
    let mut numbers: Vec<usize> = (0..definitions).collect();
    random.shuffle(&mut numbers);
    let names: Vec<String> = numbers.into_iter().map(naming).collect();
    let few = (definitions / 20).min(200);
    let mut text = String::from("# random\n\n");
    let mut add = |line: String| writeln!(text, "{line}").expect("text can be written");
    names[..few].iter().for_each(|name| add(format!("INPUT({name})")));
    (0..few).for_each(|_| add(format!("OUTPUT({})", names[random.below(definitions)])));
    names[few..2 * few].iter().for_each(|name| add(format!("{name} = DFF({})", names[random.below(definitions)])));
    for line in 2 * few..definitions {
        let count = random.pick(&[1, 1, 1, 2, 2, 2, 2, 2, 3, 4]);
        let keywords = if count == 1 { &["NOT", "BUFF"][..] } else { &["AND", "NAND", "OR", "NOR", "XOR", "XNOR"] };
        let pins: Vec<&str> = (0..count).map(|_| names[random.below(line)].as_str()).collect();
        add(format!("{} = {}({})", names[line], random.pick(keywords), pins.join(", ")));
    }
    text.into_bytes()
}
