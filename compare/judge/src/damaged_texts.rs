//! Random bench texts with something amiss. What is damaged may hide another failure, or be hidden by one, and some
//! texts are still good; what is returned is for the reader to say.

use crate::random::Random;
use crate::random_names::LETTERS;
use crate::random_texts;
use crate::text_line::is_in_names;
use std::ops::Range;

/// Bytes that stand in forms, that end or begin the ranges of bytes in names or stand next to them, and others.
const ODD: &[u8] = b"(),=# \n\t\r\0_09AZaz/:@[`{\xff\x80-.\x0b\x1f!";

/// A text of a few definitions, damaged once or more; seldom a large one.
pub fn text(random: &mut Random) -> Vec<u8> {
    if random.percent(2) {
        return crowded(random);
    }
    let mut text = random_texts::text(random);
    for _ in 0..random.pick(&[1, 1, 1, 2, 2, 4]) {
        damage(&mut text, random);
    }
    text
}

fn damage(text: &mut Vec<u8>, random: &mut Random) {
    if text.is_empty() {
        return;
    }
    let place = random.below(text.len());
    match random.below(100) {
        0..8 => text[place] = any_byte(random),
        8..15 => drop(text.remove(place)),
        15..19 => text.insert(place, text[place]),
        19..26 => text.insert(place, any_byte(random)),
        26..35 => exchange_lines(text, random),
        35..50 => double_line(text, random),
        50..65 => change_word(text, random),
        65..75 => add_or_remove_pin(text, random),
        75..79 => text.insert(place, random.pick(b"\t\r")),
        79..81 => end_lines_in_two_bytes(text),
        81..84 => drop(text.pop_if(|byte| *byte == b'\n')),
        84..89 => text.truncate(place),
        89..92 => remove_line(text, random),
        92..95 => remove_lines_with(text, random.pick(&[&b"OUTPUT"[..], b"INPUT", b"(", b"="])),
        95..97 => *text = without_inputs(text),
        _ => lengthen_word(text, random),
    }
}

fn any_byte(random: &mut Random) -> u8 {
    if random.percent(80) {
        random.pick(ODD)
    } else {
        random.below(256) as u8
    }
}

/// Takes the text lines apart, changes their list, and puts them together again.
fn with_lines(text: &mut Vec<u8>, change: impl FnOnce(&mut Vec<Vec<u8>>)) {
    let mut lines: Vec<Vec<u8>> = text.split(|&byte| byte == b'\n').map(<[u8]>::to_vec).collect();
    change(&mut lines);
    *text = lines.join(&b'\n');
}

fn exchange_lines(text: &mut Vec<u8>, random: &mut Random) {
    with_lines(text, |lines| {
        let (one, other) = (random.below(lines.len()), random.below(lines.len()));
        lines.swap(one, other);
    });
}

/// The same text line once more, at any place below or above, at times with a word changed.
fn double_line(text: &mut Vec<u8>, random: &mut Random) {
    with_lines(text, |lines| {
        let mut line = lines[random.below(lines.len())].clone();
        if random.percent(30) {
            change_word(&mut line, random);
        }
        lines.insert(random.below(lines.len() + 1), line);
    });
}

fn remove_line(text: &mut Vec<u8>, random: &mut Random) {
    with_lines(text, |lines| drop(lines.remove(random.below(lines.len()))));
}

fn remove_lines_with(text: &mut Vec<u8>, word: &[u8]) {
    with_lines(text, |lines| lines.retain(|line| !line.windows(word.len()).any(|part| part == word)));
}

/// Every input of a text without spaces becomes a flip-flop of itself.
fn without_inputs(text: &[u8]) -> Vec<u8> {
    let flip_flop = |line: &[u8]| match line.strip_prefix(b"INPUT(").and_then(|rest| rest.strip_suffix(b")")) {
        Some(name) => [name, b"=DFF(", name, b")"].concat(),
        None => line.to_vec(),
    };
    text.split(|&byte| byte == b'\n').map(flip_flop).collect::<Vec<_>>().join(&b'\n')
}

/// Byte 13 before every byte 10.
fn end_lines_in_two_bytes(text: &mut Vec<u8>) {
    *text = text.split(|&byte| byte == b'\n').collect::<Vec<_>>().join(&b"\r\n"[..]);
}

/// Where names and keywords stand.
fn words(text: &[u8]) -> Vec<Range<usize>> {
    let mut words: Vec<Range<usize>> = Vec::new();
    for (place, _) in text.iter().enumerate().filter(|(_, &byte)| is_in_names(byte)) {
        match words.last_mut() {
            Some(word) if word.end == place => word.end += 1,
            _ => words.push(place..place + 1),
        }
    }
    words
}

/// Where one of them stands, if there is one.
fn any_word(text: &[u8], random: &mut Random) -> Option<Range<usize>> {
    let words = words(text);
    (!words.is_empty()).then(|| words[random.below(words.len())].clone())
}

/// A name or keyword becomes another of the text, or nearly what it was.
fn change_word(text: &mut Vec<u8>, random: &mut Random) {
    let (Some(word), Some(other)) = (any_word(text, random), any_word(text, random)) else {
        return;
    };
    let new = match random.below(4) {
        0 | 1 => text[other].to_vec(),
        2 => nearly(&text[word.clone()], random),
        _ => random.pick(&["INPUT", "OUTPUT", "DFF", "BUFF", "NOT", "AND", "XNOR", "BUF", "a"]).into(),
    };
    text.splice(word, new);
}

/// Another last byte, one byte fewer or one more, or one letter of the other case.
fn nearly(word: &[u8], random: &mut Random) -> Vec<u8> {
    let mut word = word.to_vec();
    let (place, last) = (random.below(word.len()), word.len() - 1);
    match random.below(4) {
        0 => word[last] = random.pick(LETTERS),
        1 => word.truncate(last),
        2 => word.push(random.pick(LETTERS)),
        _ => word[place] ^= if word[place].is_ascii_alphabetic() { 32 } else { 0 },
    }
    word
}

/// A word of 32 or 33 bytes or of more.
fn lengthen_word(text: &mut Vec<u8>, random: &mut Random) {
    let Some(word) = any_word(text, random) else {
        return;
    };
    let length = random.pick(&[31, 32, 33, 33, 34, 64, 65, 256, 288]).max(word.len());
    let mut new = text[word.clone()].to_vec();
    new.resize(length, random.pick(LETTERS));
    text.splice(word, new);
}

/// One pin more or fewer before a closing parenthesis; the comma of the one fewer may stay.
fn add_or_remove_pin(text: &mut Vec<u8>, random: &mut Random) {
    let ends: Vec<usize> = (0..text.len()).filter(|&place| text[place] == b')').collect();
    let (Some(pin), false) = (any_word(text, random), ends.is_empty()) else {
        return;
    };
    let end = ends[random.below(ends.len())];
    match text[..end].iter().rposition(|byte| b",\n".contains(byte)) {
        Some(comma) if text[comma] == b',' && random.percent(50) => drop(text.drain(comma + random.below(2)..end)),
        _ => {
            let more = [b", ", &text[pin]].concat();
            text.splice(end..end, more);
        }
    }
}

/// As many inputs, flip-flops, outputs or lines as there may be, one fewer or one more, and seldom a line that fails
/// after them. No text is longer than 65,536 bytes.
fn crowded(random: &mut Random) -> Vec<u8> {
    let near = |most: usize, random: &mut Random| most - 1 + random.below(3);
    let (mut inputs, mut flip_flops, mut gates, mut outputs) = (1, 0, 1, 1);
    match random.below(4) {
        0 => inputs = near(256, random),
        1 => flip_flops = near(256, random),
        2 => (gates, outputs) = (300, near(256, random)),
        _ => gates = near(4096, random) - 1,
    }
    let mut lines: Vec<String> = (0..inputs).map(|n| format!("INPUT(i{n})")).collect();
    lines.extend((0..flip_flops).map(|n| format!("q{n}=DFF(q{n})")));
    lines.push("0=NOT(i0)".to_string());
    lines.extend((1..gates).map(|n| format!("{n}=NOT({})", n - 1)));
    lines.extend((0..outputs).map(|n| format!("OUTPUT({n})")));
    lines.push(random.pick(&["", "OUTPUT(0)", "OUTPUT(0)\n", "OUTPUT(0)", "OUTPUT(x)", "x", "0=NOT(0)"]).to_string());
    lines.join("\n").into_bytes()
}

#[cfg(test)]
mod tests {
    use super::*;
    use crate::bench_text::read;
    use std::collections::HashSet;

    #[test]
    fn every_refusal_is_met_at_many_text_lines() {
        let mut random = Random(1);
        let (mut done, mut refused) = (0, [0; 21]);
        let mut positions = [(); 21].map(|()| HashSet::new());
        for _ in 0..6000 {
            match read(&text(&mut random), &mut [0; 49_152]) {
                Ok(_) => done += 1,
                Err((number, position)) => {
                    refused[number as usize] += 1;
                    positions[number as usize].insert(position);
                }
            }
        }
        assert!(done > 1000, "{done} done");
        for (number, least, places) in [(1, 50, 1), (6, 50, 1), (18, 1000, 30), (19, 300, 30), (20, 500, 30)] {
            assert!(refused[number] > least && positions[number].len() >= places, "{refused:?}, {done} done");
        }
        assert_eq!(refused.iter().sum::<usize>() + done, 6000);
    }

    #[test]
    fn crowded_texts_are_on_both_sides_of_every_limit_and_short_enough() {
        let mut random = Random(2);
        let mut met = HashSet::new();
        for _ in 0..400 {
            let text = crowded(&mut random);
            assert!(text.len() <= 65_536);
            met.insert(read(&text, &mut [0; 49_152]));
        }
        for answer in [Ok(4096), Err((1, 0)), Err((6, 0)), Ok(257), Ok(301), Err((18, 4098))] {
            assert!(met.contains(&answer), "{answer:?} of {met:?}");
        }
    }
}
