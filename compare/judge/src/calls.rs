//! The four calls of document 01 on lent bytes, as a program meets them: what is lent, what comes back, and the result area after.

use crate::bytes::LentJob;
use crate::choose::choose;
use crate::grade::grade;
use crate::group::group;
use crate::refusals::Refusal;
use crate::simulate::simulate;

/// The fill of both areas before a call.
pub const FILL: u8 = 165;

#[derive(Clone, Copy, PartialEq, Debug)]
pub enum Kind {
    Simulate,
    Grade,
    Choose,
    Group,
}

impl Kind {
    pub const ALL: [Kind; 4] = [Kind::Simulate, Kind::Grade, Kind::Choose, Kind::Group];

    /// The number by which the test programs know the call.
    pub fn number(self) -> u8 {
        self as u8 + 1
    }
}

/// A call with all that is lent to it; it looks only at what it takes.
#[derive(Clone)]
pub struct Call {
    pub kind: Kind,
    pub job: LentJob,
    /// The records lent to Group.
    pub verdicts: Vec<u8>,
}

/// What a call leaves.
pub struct Answer {
    pub done: Result<usize, Refusal>,
    /// The whole result area.
    pub result: Vec<u8>,
}

impl Call {
    pub fn answer(&self) -> Answer {
        let LentJob { circuit, test, faults, plan, k, work_len, result_len } = &self.job;
        let mut area = vec![FILL; *result_len];
        let result = &mut area[..];
        let done = match self.kind {
            Kind::Simulate => simulate(circuit, test, faults, *work_len, result),
            Kind::Grade => grade(circuit, test, faults, plan, *k, *work_len, result),
            Kind::Choose => choose(circuit, test, faults, *k, *work_len, result),
            Kind::Group => group(&self.verdicts, result),
        };
        Answer { done, result: area }
    }
}

impl Answer {
    /// `done N` or `refused NUMBER POSITION`.
    pub fn words(&self) -> String {
        match self.done {
            Ok(count) => format!("done {count}"),
            Err((number, position)) => format!("refused {number} {position}"),
        }
    }
}

/// Bytes in lower-case hexadecimal, without spaces.
pub fn hexadecimal(bytes: &[u8]) -> String {
    const DIGITS: &[u8; 16] = b"0123456789abcdef";
    let digits = bytes.iter().flat_map(|&byte| [DIGITS[byte as usize >> 4], DIGITS[byte as usize & 15]]);
    digits.map(char::from).collect()
}
