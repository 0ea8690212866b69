//! One text line of a bench text: its tokens, and what it says.

use std::ops::RangeInclusive;

/// What a text line says.
#[derive(PartialEq, Debug)]
pub enum Said<'a> {
    /// There is nothing but spaces and a comment.
    Nothing,
    Output(&'a [u8]),
    Definition(Definition<'a>),
    /// It is of none of the forms.
    NoForm,
}

/// An input, a flip-flop or a gate; the kind is that of its record.
#[derive(PartialEq, Debug)]
pub struct Definition<'a> {
    pub name: &'a [u8],
    pub kind: u8,
    /// In text order.
    pub pins: Vec<&'a [u8]>,
}

pub const FLIP_FLOP: u8 = 1;

/// The most bytes of a name.
const LONGEST_NAME: usize = 32;

/// Keyword, kind and how many pins it may have.
#[rustfmt::skip]
const GATES: [(&[u8], u8, RangeInclusive<usize>); 9] = [
    (b"DFF", FLIP_FLOP, 1..=1), (b"BUFF", 2, 1..=1), (b"NOT", 3, 1..=1), (b"AND", 4, 2..=4), (b"NAND", 5, 2..=4),
    (b"OR", 6, 2..=4), (b"NOR", 7, 2..=4), (b"XOR", 8, 2..=4), (b"XNOR", 9, 2..=4),
];

#[derive(Clone, Copy)]
enum Token<'a> {
    /// As many letters, digits and underscores as stand together.
    Word(&'a [u8]),
    /// Any other byte but a space.
    Sign(u8),
}
use Token::{Sign, Word};

impl<'a> Said<'a> {
    /// The text line is given without the byte 10 that ends it.
    pub fn of(text_line: &'a [u8]) -> Said<'a> {
        let tokens = tokens(text_line);
        if tokens.iter().any(|token| matches!(token, Word(word) if word.len() > LONGEST_NAME)) {
            return Said::NoForm;
        }
        match tokens[..] {
            [] => Said::Nothing,
            [Word(b"INPUT"), Sign(b'('), Word(name), Sign(b')')] => {
                Said::Definition(Definition { name, kind: 0, pins: vec![] })
            }
            [Word(b"OUTPUT"), Sign(b'('), Word(name), Sign(b')')] => Said::Output(name),
            [Word(name), Sign(b'='), Word(keyword), Sign(b'('), ref between @ .., Sign(b')')] => {
                gate(name, keyword, between).map_or(Said::NoForm, Said::Definition)
            }
            _ => Said::NoForm,
        }
    }
}

/// What stands before the comment, taken apart.
fn tokens(text_line: &[u8]) -> Vec<Token<'_>> {
    let mut tokens = Vec::new();
    let mut rest = text_line;
    while let [byte, after @ ..] = rest {
        let length = rest.iter().take_while(|&&byte| is_in_names(byte)).count();
        match byte {
            b'#' => break,
            b' ' => rest = after,
            _ if length == 0 => {
                tokens.push(Sign(*byte));
                rest = after;
            }
            _ => {
                tokens.push(Word(&rest[..length]));
                rest = &rest[length..];
            }
        }
    }
    tokens
}

pub fn is_in_names(byte: u8) -> bool {
    matches!(byte, b'A'..=b'Z' | b'a'..=b'z' | b'0'..=b'9' | b'_')
}

/// A flip-flop or gate with the tokens that stand between its parentheses.
fn gate<'a>(name: &'a [u8], keyword: &[u8], between: &[Token<'a>]) -> Option<Definition<'a>> {
    let (_, kind, counts) = GATES.iter().find(|(word, ..)| *word == keyword)?;
    let pins = pins(between)?;
    counts.contains(&pins.len()).then_some(Definition { name, kind: *kind, pins })
}

/// Names with one comma between each and the next.
fn pins<'a>(tokens: &[Token<'a>]) -> Option<Vec<&'a [u8]>> {
    let mut pins = Vec::new();
    for pair in tokens.chunks(2) {
        match *pair {
            [Word(pin)] | [Word(pin), Sign(b',')] => pins.push(pin),
            _ => return None,
        }
    }
    let ends_in_a_name = tokens.len() % 2 == 1;
    ends_in_a_name.then_some(pins)
}

#[cfg(test)]
mod tests {
    use super::*;

    fn is_no_form(text_line: &str) -> bool {
        Said::of(text_line.as_bytes()) == Said::NoForm
    }

    fn definition<'a>(name: &'a str, kind: u8, pins: &[&'a str]) -> Said<'a> {
        let pins = pins.iter().map(|pin| pin.as_bytes()).collect();
        Said::Definition(Definition { name: name.as_bytes(), kind, pins })
    }

    #[test]
    fn spaces_are_free_around_tokens_and_nowhere_else() {
        for text_line in ["a = NAND(b, c)", "a=NAND(b,c)", "  a  =  NAND  (  b  ,  c  )  ", "a =NAND( b ,c )# d"] {
            assert_eq!(Said::of(text_line.as_bytes()), definition("a", 5, &["b", "c"]), "{text_line:?}");
        }
        for text_line in ["INPUT(a)", " INPUT ( a ) ", "INPUT(a)#", "INPUT( a)  # INPUT(b)"] {
            assert_eq!(Said::of(text_line.as_bytes()), definition("a", 0, &[]), "{text_line:?}");
        }
        for text_line in ["IN PUT(a)", "a = N AND(b, c)", "INPUT(a b)", "a b = NAND(c, d)", "a = NAND(b c)"] {
            assert!(is_no_form(text_line), "{text_line:?}");
        }
    }

    #[test]
    fn only_byte_32_is_a_space() {
        for byte in (0..=255).filter(|&byte| byte != b' ' && byte != b'\n' && byte != b'#') {
            assert_eq!(Said::of(&[b"INPUT(a)", &[byte][..]].concat()), Said::NoForm, "byte {byte} at the end");
            assert_eq!(Said::of(&[byte]), Said::NoForm, "byte {byte} alone");
            let inside = [b"INPUT(a)#", &[byte][..]].concat();
            assert_eq!(Said::of(&inside), definition("a", 0, &[]), "byte {byte} in a comment");
        }
    }

    #[test]
    fn nothing_is_spaces_and_a_comment() {
        for text_line in ["", " ", "   ", "#", "  # a = NOT(b)", "#\t\r\0", "##"] {
            assert_eq!(Said::of(text_line.as_bytes()), Said::Nothing, "{text_line:?}");
        }
    }

    #[test]
    fn a_comment_hides_what_follows() {
        for text_line in ["INPUT(a#)", "INPUT#(a)", "INPUT(#a)", "a # = NOT(b)", "a =# NOT(b)", "a = AND(b, #c)"] {
            assert!(is_no_form(text_line), "{text_line:?}");
        }
    }

    #[test]
    fn names_are_1_to_32_letters_digits_or_underscores() {
        for name in ["a", "Z", "0", "_", "9z_A", "12", "INPUT", "DFF", &"x".repeat(32)] {
            assert_eq!(Said::of(format!("OUTPUT({name})").as_bytes()), Said::Output(name.as_bytes()));
            let gate = format!("{name} = XNOR({name}, {name})");
            assert_eq!(Said::of(gate.as_bytes()), definition(name, 9, &[name, name]));
        }
        for name in ["", "a-b", "a.b", "/", ":", "@", "[", "`", "{", "ä", "a/0", "$", &"x".repeat(33)] {
            for text_line in [format!("INPUT({name})"), format!("{name} = NOT(a)"), format!("a = OR(b, {name})")] {
                assert!(is_no_form(&text_line), "{text_line:?}");
            }
        }
    }

    #[test]
    fn keywords_are_whole_and_in_capitals() {
        let pins = ["b", "c", "d", "e"];
        for (keyword, kind, counts) in &GATES {
            let keyword = String::from_utf8_lossy(keyword);
            for count in 0..=4 {
                let text_line = format!("a = {keyword}({})", pins[..count].join(", "));
                let said = Said::of(text_line.as_bytes());
                let allowed = counts.contains(&count);
                assert_eq!(said == definition("a", *kind, &pins[..count]), allowed, "{text_line}");
                assert_eq!(said == Said::NoForm, !allowed, "{text_line}");
            }
            assert!(is_no_form(&format!("a = {keyword}(b, c, d, e, f)")));
            assert!(is_no_form(&format!("{keyword}(b)")) && is_no_form(&format!("{keyword}(b, c)")));
        }
        let others =
            ["BUF", "BUFFER", "and", "And", "ANDX", "XAND", "NO", "DF", "DFFX", "INPUT", "OUTPUT", "", "1", "_"];
        for keyword in others {
            assert!(
                is_no_form(&format!("a = {keyword}(b)")) && is_no_form(&format!("a = {keyword}(b, c)")),
                "{keyword}"
            );
        }
        for keyword in ["input", "INPU", "INPUTT", "output", "OUTPU", "OUTPUT1", "PUT", ""] {
            assert!(is_no_form(&format!("{keyword}(a)")), "{keyword}");
        }
    }

    #[test]
    fn tokens_stand_in_the_order_of_the_forms() {
        let others = [
            "AND(b,,c)",
            "AND(b,)",
            "AND(,b)",
            "AND(,)",
            "AND(b, c",
            "AND b, c)",
            "AND(b, c))",
            "AND((b, c))",
            "AND",
            "AND(b, c),",
            "AND(b, c) d",
            "AND(b, c) INPUT(d)",
            "(b, c)",
            "= AND(b, c)",
            "DFF(b, c)",
            "b",
            "AND(b = c)",
        ];
        for right in others {
            assert!(is_no_form(&format!("a = {right}")), "{right}");
        }
        let others = ["a", "=", "INPUT", "INPUT a", "INPUT(a", "INPUT a)", "INPUT()", "INPUT(a, b)", "INPUT(a)(b)"];
        for text_line in
            others.into_iter().chain(["INPUT(a) INPUT(b)", "INPUT = (a)", "a AND(b, c)", "a, b = AND(c, d)"])
        {
            assert!(is_no_form(text_line), "{text_line}");
        }
    }
}
