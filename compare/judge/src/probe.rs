//! The test program that makes one call: the file that tells it which, and what it prints.

use crate::bytes::LentJob;
use crate::calls::{hexadecimal, Call, Kind};
use crate::random_calls::LONGEST_AREA;

/// Call, 0, 16-bit k, 32-bit lengths of work area and result area, low byte first.
pub fn call_bytes(call: &Call) -> Vec<u8> {
    let mut bytes = vec![call.kind.number(), 0];
    bytes.extend((call.job.k as u16).to_le_bytes());
    bytes.extend((call.job.work_len as u32).to_le_bytes());
    bytes.extend((call.job.result_len as u32).to_le_bytes());
    bytes
}

/// The call that the bytes tell, on a job's four inputs and verdicts; none if they are not such bytes.
pub fn read_call(bytes: &[u8], job: LentJob, verdicts: Vec<u8>) -> Option<Call> {
    let &[number, 0, k_low, k_high, ref lengths @ ..] = bytes else {
        return None;
    };
    let [work_len, result_len] = [lengths.get(..4)?, lengths.get(4..8)?].map(|length| {
        let length: [u8; 4] = length.try_into().expect("four bytes");
        u32::from_le_bytes(length) as usize
    });
    let kind = Kind::ALL.into_iter().find(|kind| kind.number() == number)?;
    let k = u16::from_le_bytes([k_low, k_high]) as usize;
    let fits = lengths.len() == 8 && work_len <= LONGEST_AREA && result_len <= LONGEST_AREA;
    fits.then_some(Call { kind, job: LentJob { k, work_len, result_len, ..job }, verdicts })
}

/// What it may print for such bytes. Only an accepted call may use the work area, and Group takes none.
pub fn prints(call: Option<&Call>) -> Vec<String> {
    let Some(call) = call else {
        return vec!["bad call\n".to_string()];
    };
    let answer = call.answer();
    let mut text = answer.words() + "\n";
    for bytes in answer.result.chunks(32) {
        text += &(hexadecimal(bytes) + "\n");
    }
    let kept = text.clone() + "work kept\n";
    if answer.done.is_ok() && call.kind != Kind::Group {
        return vec![text + "work used\n", kept];
    }
    vec![kept]
}
