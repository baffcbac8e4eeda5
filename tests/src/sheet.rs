//! A sheet of questions (document 02, C-17): several rights judged on one file,
//! each with its own part of the buffer.

use crate::judge::judge;

/// A sheet has at most so many entries.
pub const MOST_ENTRIES: usize = 8;
/// An entry: the right, the code of the answer, and the number of steps, low byte
/// first.
pub const ENTRY: usize = 4;

pub fn sheet(file: &[u8], entries: &mut [u8], buffer: &mut [u8]) -> u8 {
    let count = entries.len() / ENTRY;
    if count > MOST_ENTRIES {
        return 43;
    }
    for number in 0..count {
        let length = buffer.len() / count;
        let part = &mut buffer[number * length..(number + 1) * length];
        let account = judge(file, entries[ENTRY * number], part);
        let steps = u16::try_from(account.steps).expect("a number within the bound");
        let [low, high] = steps.to_le_bytes();
        entries[ENTRY * number + 1..ENTRY * (number + 1)].copy_from_slice(&[
            account.code,
            low,
            high,
        ]);
    }
    0
}
