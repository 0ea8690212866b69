//! Random names for the lines of a bench text, no two alike, but many nearly so.

use crate::random::Random;
use std::collections::HashSet;

/// The bytes that a name may have.
pub const LETTERS: &[u8] = b"ABCDEFGHIJKLMNOPQRSTUVWXYZabcdefghijklmnopqrstuvwxyz0123456789_";

const KEYWORDS: [&str; 16] = [
    "INPUT", "OUTPUT", "DFF", "BUFF", "NOT", "AND", "NAND", "OR", "NOR", "XOR", "XNOR", "BUF", "INPUT1", "and", "N",
    "X",
];

/// How the names of a text are made.
#[derive(Clone, Copy)]
enum Manner {
    /// One to three bytes out of few.
    Short,
    /// A letter and a number, as in the texts that design houses send.
    Numbered,
    /// Up to 32 bytes, all but the last few the same.
    SameBeginning,
    /// Each is the beginning of a longer one.
    Growing,
    Keyword,
    Digits,
    /// 1 to 32 bytes of any sort.
    Any,
}

const MANNERS: [Manner; 7] = [
    Manner::Short,
    Manner::Numbered,
    Manner::SameBeginning,
    Manner::Growing,
    Manner::Keyword,
    Manner::Digits,
    Manner::Any,
];

/// So many names; most of them are made in the manner of the text.
pub fn names(count: usize, random: &mut Random) -> Vec<String> {
    let (manner, long) = (random.pick(&MANNERS), letters(32, random));
    let mut taken = HashSet::new();
    let mut names = Vec::new();
    while names.len() < count {
        let manner = if random.percent(80) { manner } else { random.pick(&MANNERS) };
        let name = name(manner, &long, random);
        if taken.insert(name.clone()) {
            names.push(name);
        }
    }
    names
}

fn letters(count: usize, random: &mut Random) -> String {
    (0..count).map(|_| random.pick(LETTERS) as char).collect()
}

/// A name; `long` is the longest name of the text that has these beginnings.
fn name(manner: Manner, long: &str, random: &mut Random) -> String {
    match manner {
        Manner::Short => (0..random.between(1, 3)).map(|_| random.pick(b"ab_1A") as char).collect(),
        Manner::Numbered => {
            let (before, after) = (random.pick(&["G", "n", "N", "I"]), random.pick(&["", "", "gat"]));
            format!("{before}{}{after}", random.below(400))
        }
        Manner::SameBeginning => {
            let beginning = random.between(28, 31);
            let more = random.between(1, 32 - beginning);
            format!("{}{}", &long[..beginning], letters(more, random))
        }
        Manner::Growing => long[..random.between(1, 32)].to_string(),
        Manner::Keyword => random.pick(&KEYWORDS).to_string(),
        Manner::Digits => random.below(500).to_string(),
        Manner::Any => {
            let length = random.between(1, 32);
            letters(length, random)
        }
    }
}

#[cfg(test)]
mod tests {
    use super::*;
    use crate::text_line::is_in_names;

    #[test]
    fn names_are_such_and_of_all_lengths() {
        let mut random = Random(1);
        let mut lengths = HashSet::new();
        for _ in 0..200 {
            let names = names(30, &mut random);
            assert_eq!(names.iter().collect::<HashSet<_>>().len(), 30);
            assert!(names.iter().all(|name| name.bytes().all(is_in_names)));
            lengths.extend(names.iter().map(String::len));
        }
        assert_eq!(lengths, (1..=32).collect());
    }
}
