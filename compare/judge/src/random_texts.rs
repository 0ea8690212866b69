//! Random bench texts that are accepted: names of all lengths, free spaces, comments, text lines that are passed over,
//! flip-flops and outputs that name lines below, outputs that are repeated.

use crate::random::Random;
use crate::random_names::names;

/// Keywords, the least pins and the most.
#[rustfmt::skip]
const GATES: [(&str, usize, usize); 8] = [
    ("BUFF", 1, 1), ("NOT", 1, 1), ("AND", 2, 4), ("NAND", 2, 4), ("OR", 2, 4), ("NOR", 2, 4),
    ("XOR", 2, 4), ("XNOR", 2, 4),
];

/// Where a text has spaces.
#[derive(Clone, Copy)]
enum Spaces {
    Nowhere,
    /// As the document writes the forms.
    Usual,
    Anywhere,
}

/// A text of 1 to 40 definitions.
pub fn text(random: &mut Random) -> Vec<u8> {
    let definitions = random.pick(&[1, 2, 3, 5, 8, 13, 20, 40]);
    let definitions = random.between(definitions.min(3), definitions);
    let lines = lines(definitions, random);
    written(&lines, random)
}

/// The tokens of a text line.
type Tokens = Vec<String>;

/// Definitions in a good order, and outputs among them.
fn lines(definitions: usize, random: &mut Random) -> Vec<Tokens> {
    let names = names(definitions, random);
    let first_input = random.below(definitions.min(3));
    let mut lines: Vec<Tokens> = Vec::new();
    for (line, name) in names.iter().enumerate() {
        lines.push(match random.below(100) {
            _ if line == first_input => on("INPUT", &[name]),
            0..20 => on("INPUT", &[name]),
            20..45 => defined(name, on("DFF", &[&names[random.below(definitions)]])),
            _ if line == 0 => defined(name, on("DFF", &[name])),
            _ => defined(name, gate(&names[..line], random)),
        });
    }
    let outputs = random.pick(&[1, 1, 2, 3, 6]);
    let together = random.below(lines.len() + 1);
    for _ in 0..outputs {
        let place = if random.percent(50) { together } else { random.below(lines.len() + 1) };
        let watched = if random.percent(60) { random.below(definitions) } else { random.pick(&[0, definitions - 1]) };
        lines.insert(place, on("OUTPUT", &[&names[watched]]));
    }
    lines
}

/// A keyword and what stands in parentheses.
fn on(keyword: &str, names: &[&String]) -> Tokens {
    let mut tokens = vec![keyword.to_string(), "(".to_string()];
    for (position, name) in names.iter().enumerate() {
        if position > 0 {
            tokens.push(",".to_string());
        }
        tokens.push(name.to_string());
    }
    tokens.push(")".to_string());
    tokens
}

fn defined(name: &str, right: Tokens) -> Tokens {
    [vec![name.to_string(), "=".to_string()], right].concat()
}

/// A gate of lines above it, some of them more than once.
fn gate(above: &[String], random: &mut Random) -> Tokens {
    let (keyword, least, most) = random.pick(&GATES);
    let count = if random.percent(50) { least } else { random.between(least, most) };
    let pins: Vec<&String> = (0..count).map(|_| &above[random.below(above.len())]).collect();
    on(keyword, &pins)
}

/// The text of these lines; the last byte is mostly 10.
fn written(lines: &[Tokens], random: &mut Random) -> Vec<u8> {
    let spaces = random.pick(&[Spaces::Nowhere, Spaces::Usual, Spaces::Usual, Spaces::Anywhere]);
    let remarks = random.pick(&[0, 5, 30]);
    let mut text = Vec::new();
    for line in lines {
        while random.percent(remarks) {
            text.extend(passed_over(random));
            text.push(b'\n');
        }
        text.extend(spaced(line, spaces, random).bytes());
        if random.percent(remarks) {
            text.extend(remark(random));
        }
        text.push(b'\n');
    }
    if random.percent(remarks) {
        text.extend(passed_over(random));
    } else if random.percent(30) {
        text.pop();
    }
    text
}

fn spaced(tokens: &Tokens, spaces: Spaces, random: &mut Random) -> String {
    let mut text = String::new();
    for token in tokens {
        let (before, after) = match (spaces, token.as_str()) {
            (Spaces::Usual, "=") => (1, 1),
            (Spaces::Usual, ",") => (0, 1),
            (Spaces::Anywhere, _) => (random.pick(&[0, 0, 0, 1, 3]), random.pick(&[0, 0, 0, 1, 2])),
            _ => (0, 0),
        };
        text += &format!("{}{token}{}", " ".repeat(before), " ".repeat(after));
    }
    text
}

fn passed_over(random: &mut Random) -> Vec<u8> {
    let mut text = vec![b' '; random.pick(&[0, 0, 1, 4])];
    if random.percent(50) {
        text.extend(remark(random));
    }
    text
}

/// A comment of words, of a form, or of any bytes.
fn remark(random: &mut Random) -> Vec<u8> {
    let words = match random.below(4) {
        0 => b" 4 inputs".to_vec(),
        1 => b"INPUT(a)".to_vec(),
        2 => b")\r".to_vec(),
        _ => (0..random.below(12)).map(|_| random.below(256) as u8).filter(|&byte| byte != b'\n').collect(),
    };
    [vec![b'#'], words].concat()
}

#[cfg(test)]
mod tests {
    use super::*;
    use crate::bench_text::read;
    use std::collections::HashSet;

    #[test]
    fn texts_are_accepted_and_hold_every_kind_and_pin_count() {
        let mut random = Random(1);
        let (mut lengths, mut kinds) = (HashSet::new(), HashSet::new());
        for _ in 0..3000 {
            let text = text(&mut random);
            let mut result = [0; 12 * 40];
            let count = read(&text, &mut result).unwrap_or_else(|refusal| {
                panic!("refused {refusal:?}: {}", text.escape_ascii());
            });
            lengths.insert(count);
            kinds.extend(result[..12 * count].chunks_exact(12).map(|record| (record[0], record[1], record[2])));
        }
        assert_eq!(lengths, (1..=40).collect());
        // input, flip-flop, buffer, NOT with one pin count each and six kinds with three, as output and not
        assert_eq!(kinds.len(), 2 * (4 + 6 * 3));
    }
}
