//! A bench text read into a circuit, and the names of its lines.

use crate::bytes::line_record;
use crate::refusals::{read_circuit, Refusal};
use crate::text_line::{Definition, Said, FLIP_FLOP};
use std::collections::{HashMap, HashSet};

/// Writes the circuit's records; their number, or number and position of a refusal.
pub fn read(text: &[u8], result: &mut [u8]) -> Result<usize, Refusal> {
    let records = Text::of(text).circuit()?;
    if result.len() < records.len() {
        return Err((14, 0));
    }
    result[..records.len()].copy_from_slice(&records);
    Ok(records.len() / 12)
}

/// The names of all lines, in order, each as the part of the text where its line is defined.
pub fn names(text: &[u8]) -> Result<Vec<&[u8]>, Refusal> {
    let text = Text::of(text);
    text.circuit()?;
    Ok(text.definitions().map(|definition| definition.name).collect())
}

/// Where a name is defined first.
struct Place {
    text_line: usize,
    /// The number of the line, as long as no name is defined twice.
    line: usize,
}

struct Text<'a> {
    /// What each text line says.
    said: Vec<Said<'a>>,
    places: HashMap<&'a [u8], Place>,
}

impl<'a> Text<'a> {
    fn of(text: &'a [u8]) -> Text<'a> {
        let said: Vec<Said> = text.split(|&byte| byte == b'\n').map(Said::of).collect();
        let mut places = HashMap::new();
        for (text_line, said) in said.iter().enumerate() {
            if let Said::Definition(definition) = said {
                let line = places.len();
                places.entry(definition.name).or_insert(Place { text_line, line });
            }
        }
        Text { said, places }
    }

    fn definitions(&self) -> impl Iterator<Item = &Definition<'a>> {
        self.said.iter().filter_map(|said| match said {
            Said::Definition(definition) => Some(definition),
            _ => None,
        })
    }

    /// The records, which 18 to 20 and then 1 to 6 do not refuse.
    fn circuit(&self) -> Result<Vec<u8>, Refusal> {
        if let Some(refusal) = self.first_failure() {
            return Err(refusal);
        }
        let records = self.records();
        read_circuit(&records).map(|_| records)
    }

    fn first_failure(&self) -> Option<Refusal> {
        (0..self.said.len()).find_map(|text_line| self.failure(text_line).map(|number| (number, text_line)))
    }

    /// The number by which a text line fails.
    fn failure(&self, text_line: usize) -> Option<u8> {
        let is_above = |name: &[u8]| self.places.get(name).is_some_and(|place| place.text_line < text_line);
        let is_anywhere = |name: &[u8]| self.places.contains_key(name);
        match &self.said[text_line] {
            Said::Nothing => None,
            Said::NoForm => Some(18),
            Said::Output(name) => (!is_anywhere(name)).then_some(20),
            Said::Definition(definition) if is_above(definition.name) => Some(19),
            Said::Definition(Definition { kind: FLIP_FLOP, pins, .. }) => {
                (!pins.iter().all(|pin| is_anywhere(pin))).then_some(20)
            }
            Said::Definition(definition) => (!definition.pins.iter().all(|pin| is_above(pin))).then_some(20),
        }
    }

    /// The records of a text of which no line fails.
    fn records(&self) -> Vec<u8> {
        let output = |said: &Said<'a>| if let Said::Output(name) = said { Some(*name) } else { None };
        let outputs: HashSet<&[u8]> = self.said.iter().filter_map(output).collect();
        let record = |Definition { name, kind, pins }: &Definition| {
            let lines: Vec<usize> = pins.iter().map(|pin| self.places[pin].line).collect();
            line_record(*kind, outputs.contains(name) as u8, &lines)
        };
        self.definitions().flat_map(record).collect()
    }
}

#[cfg(test)]
mod tests {
    use super::*;
    use crate::bytes::{circuit_bytes, Line};
    use crate::calls::FILL;
    use std::fmt::Write;

    fn answer(text: impl AsRef<[u8]>) -> Result<usize, Refusal> {
        read(text.as_ref(), &mut [FILL; 49_152])
    }

    /// The name call: an empty part if there is no such line or the text is refused.
    fn name(text: &[u8], line: usize) -> &[u8] {
        names(text).ok().and_then(|names| names.get(line).copied()).unwrap_or_default()
    }

    /// That the text is read into these lines.
    fn holds(text: &str, lines: &[Line]) {
        let mut result = [FILL; 1200];
        let length = 12 * lines.len();
        assert_eq!(read(text.as_bytes(), &mut result), Ok(lines.len()), "{text:?}");
        assert_eq!(result[..length], circuit_bytes(lines), "{text:?}");
        assert!(result[length..].iter().all(|&byte| byte == FILL), "{text:?}");
    }

    #[test]
    fn every_kind_is_read_with_its_pins_in_text_order() {
        holds("INPUT(a)\nOUTPUT(a)\n", &[(0, 1, &[])]);
        holds("INPUT(b)\na = DFF(b)\nOUTPUT(a)\n", &[(0, 0, &[]), (1, 1, &[0])]);
        holds("INPUT(b)\nINPUT(c)\na = NAND(c, b)\nOUTPUT(a)", &[(0, 0, &[]), (0, 0, &[]), (5, 1, &[1, 0])]);
        let text = "OUTPUT(o)\nINPUT(i)\nd=DFF(x)\nb=BUFF(i)\nn=NOT(d)\na=AND(n,b,i,d)\no=OR(a,n,b)\nr=NOR(o,o)\n\
            x=XOR(i,r)\ny=XNOR(x,d,r)\nOUTPUT(i)";
        let lines: [Line; 9] = [
            (0, 1, &[]),
            (1, 0, &[7]),
            (2, 0, &[0]),
            (3, 0, &[1]),
            (4, 0, &[3, 2, 0, 1]),
            (6, 1, &[4, 3, 2]),
            (7, 0, &[5, 5]),
            (8, 0, &[0, 6]),
            (9, 0, &[7, 1, 6]),
        ];
        holds(text, &lines);
    }

    #[test]
    fn s27_is_read() {
        let text = b"# 4 inputs\n\nINPUT(G0)\nINPUT(G1)\nINPUT(G2)\nINPUT(G3)\n\nOUTPUT(G17)\n\nG5 = DFF(G10)\n\
            G6 = DFF(G11)\nG7 = DFF(G13)\nG14 = NOT(G0)\nG12 = NOR(G1, G7)\nG8 = AND(G14, G6)\nG13 = NOR(G2, G12)\n\
            G15 = OR(G12, G8)\nG16 = OR(G3, G8)\nG9 = NAND(G16, G15)\nG11 = NOR(G5, G9)\nG17 = NOT(G11)\n\
            G10 = NOR(G14, G11)\n";
        let mut result = [FILL; 17 * 12];
        assert_eq!(read(text, &mut result), Ok(17));
        assert_eq!(result[..], crate::s27::circuit());
        assert_eq!([0, 4, 16].map(|line| name(text, line)), [&b"G0"[..], b"G5", b"G10"]);
    }

    #[test]
    fn a_line_of_no_form_defines_nothing() {
        assert_eq!(answer("OUTPUT(z)\nINPUT(a)\nz = AND(a)\n"), Err((20, 0)));
        assert_eq!(answer("OUTPUT(q)\nx\n"), Err((20, 0)));
        assert_eq!(answer("OUTPUT(q)\nx\nINPUT(q)\n"), Err((18, 1)));
        assert_eq!(answer("OUTPUT(q)\nINPUT(q) x\n"), Err((20, 0)));
        assert_eq!(answer("OUTPUT(q)\n# INPUT(q)\n"), Err((20, 0)));
    }

    #[test]
    fn a_line_that_fails_by_19_or_20_defines() {
        assert_eq!(answer("OUTPUT(z)\nz = NOT(q)\n"), Err((20, 1)));
        assert_eq!(answer("q = DFF(z)\nz = NOT(y)\n"), Err((20, 1)));
        assert_eq!(answer("INPUT(a)\nb = NOT(q)\nc = NOT(b)\n"), Err((20, 1)));
        assert_eq!(answer("OUTPUT(a)\nINPUT(a)\na = NOT(a)\n"), Err((19, 2)));
    }

    #[test]
    fn the_lowest_failing_line_and_in_it_18_then_19_then_20() {
        assert_eq!(answer("INPUT(a)\na = NOT(q)\n"), Err((19, 1)));
        assert_eq!(answer("INPUT(a)\na = DFF(q)\n"), Err((19, 1)));
        assert_eq!(answer("INPUT(a)\na = AND(q)\n"), Err((18, 1)));
        assert_eq!(answer("INPUT(a)\nx\nINPUT(a)\n"), Err((18, 1)));
        assert_eq!(answer("INPUT(a)\nINPUT(a)\nx\n"), Err((19, 1)));
        assert_eq!(answer("OUTPUT(q)\nINPUT(a)\nINPUT(a)\n"), Err((20, 0)));
        assert_eq!(answer("# c\n\n   \nINPUT(a)\n  # d\nOUTPUT(a)\nx\n"), Err((18, 6)));
    }

    #[test]
    fn gates_name_lines_above_and_flip_flops_any() {
        assert_eq!(answer("INPUT(b)\na = NOT(a)\nOUTPUT(a)\n"), Err((20, 1)));
        assert_eq!(answer("INPUT(b)\na = OR(b, b, b, c)\nINPUT(c)\nOUTPUT(a)\n"), Err((20, 1)));
        holds("INPUT(b)\nq = DFF(q)\nOUTPUT(q)\n", &[(0, 0, &[]), (1, 1, &[1])]);
        holds("q = DFF(r)\nr = DFF(q)\nINPUT(a)\nOUTPUT(q)\n", &[(1, 1, &[1]), (1, 0, &[0]), (0, 0, &[])]);
        assert_eq!(answer("INPUT(b)\nq = DFF(r)\nOUTPUT(q)\n"), Err((20, 1)));
    }

    #[test]
    fn the_text_may_end_in_byte_10_or_not() {
        let texts = ["INPUT(a)\nOUTPUT(a)", "INPUT(a)\nOUTPUT(a)\n", "\nOUTPUT(a)\nOUTPUT(a)\n\nINPUT(a)#\n\n #"];
        texts.iter().for_each(|text| holds(text, &[(0, 1, &[])]));
        assert_eq!(answer("INPUT(a)\nOUTPUT(a)\n\t"), Err((18, 2)));
        assert_eq!(answer("INPUT(a)\r\nOUTPUT(a)\r\n"), Err((18, 0)));
        assert_eq!(answer("INPUT(a)\nOUTPUT(a)\n\r\n"), Err((18, 2)));
    }

    #[test]
    fn rows_1_and_6_come_after() {
        for text in ["", " ", "\n\n", "# INPUT(a)"] {
            assert_eq!(answer(text), Err((1, 0)), "{text:?}");
        }
        for text in ["INPUT(a)", "q = DFF(q)\nOUTPUT(q)", "INPUT(a)\nb = NOT(a)\n"] {
            assert_eq!(answer(text), Err((6, 0)), "{text:?}");
        }
        assert_eq!(answer("INPUT(a)\nx"), Err((18, 1)));
    }

    /// So many lines of each sort, the inputs first.
    fn many(inputs: usize, flip_flops: usize, gates: usize, outputs: usize) -> String {
        let mut text = String::new();
        let mut add = |line: std::fmt::Arguments| writeln!(text, "{line}").expect("text can be written");
        (0..inputs).for_each(|n| add(format_args!("INPUT(i{n})")));
        (0..flip_flops).for_each(|n| add(format_args!("q{n} = DFF(i0)")));
        (0..gates).for_each(|n| add(format_args!("g{n} = NOT(i0)")));
        (0..outputs).for_each(|n| add(format_args!("OUTPUT(g{n})")));
        text
    }

    #[test]
    fn no_sort_has_more_than_256() {
        assert_eq!(answer(many(256, 256, 256, 256)), Ok(768));
        assert_eq!(answer(many(257, 1, 1, 1)), Err((6, 0)));
        assert_eq!(answer(many(256, 257, 1, 1)), Err((6, 0)));
        assert_eq!(answer(many(1, 0, 257, 257)), Err((6, 0)));
        assert_eq!(answer(many(1, 0, 257, 256) + &"OUTPUT(g0)\n".repeat(300)), Ok(258));
    }

    #[test]
    fn more_than_4096_definitions_are_refused_after_the_whole_text() {
        assert_eq!(answer(many(1, 0, 4095, 1)), Ok(4096));
        assert_eq!(answer(many(1, 0, 4096, 1)), Err((1, 0)));
        assert_eq!(answer(many(1, 0, 4096, 1) + "x\n"), Err((18, 4098)));
        assert_eq!(answer(many(1, 0, 70_000, 1) + "z = AND(g65535, g69999)\n"), Err((1, 0)));
        assert_eq!(answer(many(1, 0, 70_000, 1) + "g69999 = NOT(z)\n"), Err((19, 70_002)));
        assert_eq!(answer(many(1, 0, 70_000, 1) + "z = NOT(g70000)\n"), Err((20, 70_002)));
    }

    #[test]
    fn the_area_comes_last() {
        let text = b"INPUT(a)\nOUTPUT(a)\nb = NOT(a)\n";
        assert_eq!(
            [24, 25, 23, 0].map(|length| read(text, &mut vec![0; length])),
            [Ok(2), Ok(2), Err((14, 0)), Err((14, 0))]
        );
        assert_eq!(
            ["", "x", "INPUT(a)"].map(|text| read(text.as_bytes(), &mut [])),
            [Err((1, 0)), Err((18, 0)), Err((6, 0))]
        );
        let mut short = [FILL; 23];
        let _ = read(text, &mut short);
        assert_eq!(short, [FILL; 23]);
    }

    #[test]
    fn a_name_is_the_part_where_the_line_is_defined() {
        let text = b"OUTPUT(ab)\n  ab = DFF(a)\nINPUT( a )\nOUTPUT(a)\nINPUT=NOT(ab)";
        let part = |line: usize| name(text, line).as_ptr() as usize - text.as_ptr() as usize;
        assert_eq!(
            [0, 1, 2].map(|line| (part(line), name(text, line))),
            [(13, &b"ab"[..]), (32, b"a"), (46, b"INPUT")]
        );
        assert_eq!([3, 4, usize::MAX].map(|line| name(text, line)), [b""; 3]);
        for refused in ["INPUT(a)\n", "", "INPUT(a)\nOUTPUT(a)\nx", "INPUT(a)\nINPUT(a)\n", "INPUT(a)\nOUTPUT(b)"] {
            assert_eq!([0, 1].map(|line| name(refused.as_bytes(), line)), [b""; 2], "{refused:?}");
        }
    }
}
