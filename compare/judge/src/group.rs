//! The call Group: refuses verdicts or writes, for each record, the first position with equal verdict, time and line.

use crate::refusals::Refusal;
use std::collections::HashMap;

/// The number of entries written, or number and position of a refusal.
pub fn group(verdicts: &[u8], result: &mut [u8]) -> Result<usize, Refusal> {
    if !verdicts.len().is_multiple_of(16) || verdicts.len() > 524_288 {
        return Err((15, 0));
    }
    let count = verdicts.len() / 16;
    if result.len() < 2 * count {
        return Err((14, 0));
    }
    let mut first_positions = HashMap::new();
    for (position, (record, entry)) in verdicts.chunks_exact(16).zip(result.chunks_exact_mut(2)).enumerate() {
        let verdict_time_line = (record[0], &record[2..6]);
        let first = *first_positions.entry(verdict_time_line).or_insert(position);
        entry.copy_from_slice(&(first as u16).to_le_bytes());
    }
    Ok(count)
}
