//! The proved library behind its C boundary (`include/tugcaphi.h`). Every verdict, refusal, replay,
//! rule run and answer to a press is an answer of these seven calls, decided there and nowhere else.

use crate::limits::ENTRY_BYTES;

#[link(name = "exports", kind = "static")]
extern "C" {
    fn access_check(file: *const u8, length: usize) -> u8;
    fn access_run(file: *mut u8, length: usize, rule: u8, a0: u8, a1: u8, a2: u8, a3: u8) -> u8;
    fn access_replay(
        file: *const u8,
        length: usize,
        trace: *const u8,
        trace_length: usize,
        right: u8,
        step: *mut u64,
    ) -> u8;
    fn access_judge(
        file: *const u8,
        length: usize,
        right: u8,
        buffer: *mut u8,
        buffer_length: usize,
        steps: *mut u64,
    ) -> u8;
    fn access_judge_part(
        file: *const u8,
        length: usize,
        right: u8,
        trusted: *const u8,
        trusted_length: usize,
        buffer: *mut u8,
        buffer_length: usize,
        steps: *mut u64,
    ) -> u8;
    fn access_sheet(
        file: *const u8,
        length: usize,
        entries: *mut u8,
        entries_length: usize,
        buffer: *mut u8,
        buffer_length: usize,
    ) -> u8;
    fn access_need(
        file: *const u8,
        length: usize,
        cells: *const u8,
        cells_length: usize,
        buffer: *mut u8,
        buffer_length: usize,
        steps: *mut u64,
    ) -> u8;
}

/// The code of a leak, and of an unsafe table.
const LEAK: u8 = 255;
/// The code of cells that can all be held.
const HELD: u8 = 255;

#[derive(Clone, Copy, Debug, PartialEq, Eq)]
pub enum Replay {
    NoLeak,
    /// The number of the leaking step, from 0.
    Leak(u64),
    Refused {
        by: u8,
        step: u64,
    },
}

#[derive(Clone, Copy, Debug, PartialEq, Eq)]
pub enum Judgement {
    /// The number of steps at the front of the buffer.
    Safe(u64),
    Unsafe(u64),
    Refused(u8),
}

impl Judgement {
    fn of(code: u8, steps: u64) -> Judgement {
        match code {
            0 => Judgement::Safe(steps),
            LEAK => Judgement::Unsafe(steps),
            by => Judgement::Refused(by),
        }
    }

    /// The number of steps at the front of the buffer.
    pub fn steps(self) -> u64 {
        match self {
            Judgement::Safe(steps) | Judgement::Unsafe(steps) => steps,
            Judgement::Refused(_) => 0,
        }
    }
}

#[derive(Clone, Copy, Debug, PartialEq, Eq)]
pub enum Need {
    /// The number of steps at the front of the buffer.
    Held(u64),
    Never(u64),
    Refused(u8),
}

/// 0, or the refusal of whoever wrote the file.
pub fn check(file: &[u8]) -> u8 {
    // SAFETY: pointer and length are those of a slice, which is only read.
    unsafe { access_check(file.as_ptr(), file.len()) }
}

/// 0 where the rule was run, or the refusal; refused, the file keeps its bytes.
pub fn run(file: &mut [u8], rule: u8, actuals: [u8; 4]) -> u8 {
    let [a0, a1, a2, a3] = actuals;
    // SAFETY: pointer and length are those of a slice lent for writing.
    unsafe { access_run(file.as_mut_ptr(), file.len(), rule, a0, a1, a2, a3) }
}

pub fn replay(file: &[u8], trace: &[u8], right: u8) -> Replay {
    let mut step = 0;
    // SAFETY: pointers and lengths are those of slices, which are only read; the step is a number
    // of our own.
    let code = unsafe {
        access_replay(
            file.as_ptr(),
            file.len(),
            trace.as_ptr(),
            trace.len(),
            right,
            &mut step,
        )
    };
    match code {
        0 => Replay::NoLeak,
        LEAK => Replay::Leak(step),
        by => Replay::Refused { by, step },
    }
}

/// The judge's steps fill the front of the buffer, five bytes each; the rest of it keeps its bytes.
pub fn judge(file: &[u8], right: u8, buffer: &mut [u8]) -> Judgement {
    let mut steps = 0;
    // SAFETY: pointers and lengths are those of slices that do not overlap; of these only the
    // buffer, lent for writing, is written. The number of steps is one of our own.
    let code = unsafe {
        access_judge(
            file.as_ptr(),
            file.len(),
            right,
            buffer.as_mut_ptr(),
            buffer.len(),
            &mut steps,
        )
    };
    Judgement::of(code, steps)
}

/// The judge of what stays without the trusted names, a byte each, and their rows and columns; its steps are written as
/// the judge's are.
pub fn judge_part(file: &[u8], right: u8, trusted: &[u8], buffer: &mut [u8]) -> Judgement {
    let mut steps = 0;
    // SAFETY: pointers and lengths are those of slices that do not overlap; of these only the
    // buffer, lent for writing, is written. The number of steps is one of our own.
    let code = unsafe {
        access_judge_part(
            file.as_ptr(),
            file.len(),
            right,
            trusted.as_ptr(),
            trusted.len(),
            buffer.as_mut_ptr(),
            buffer.len(),
            &mut steps,
        )
    };
    Judgement::of(code, steps)
}

/// The judge of several rights. The buffer has as many equal parts, and a right's steps fill the front of its own. Where
/// the sheet is refused, so is each right.
pub fn sheet(file: &[u8], rights: &[u8], buffer: &mut [u8]) -> Vec<Judgement> {
    let mut entries: Vec<u8> = rights.iter().flat_map(|&right| [right, 0, 0, 0]).collect();
    // SAFETY: pointers and lengths are those of slices that do not overlap; of these only entries
    // and buffer, lent for writing, are written.
    let refusal = unsafe {
        access_sheet(
            file.as_ptr(),
            file.len(),
            entries.as_mut_ptr(),
            entries.len(),
            buffer.as_mut_ptr(),
            buffer.len(),
        )
    };
    let answer = |entry: &[u8]| match refusal {
        0 => Judgement::of(entry[1], u16::from_le_bytes([entry[2], entry[3]]).into()),
        by => Judgement::Refused(by),
    };
    entries.chunks_exact(ENTRY_BYTES).map(answer).collect()
}

/// Whether all cells, three bytes each, can be held at the same moment. The steps fill the front of the buffer; the
/// rest of it keeps its bytes.
pub fn need(file: &[u8], cells: &[u8], buffer: &mut [u8]) -> Need {
    let mut steps = 0;
    // SAFETY: pointers and lengths are those of slices that do not overlap; of these only the
    // buffer, lent for writing, is written. The number of steps is one of our own.
    let code = unsafe {
        access_need(
            file.as_ptr(),
            file.len(),
            cells.as_ptr(),
            cells.len(),
            buffer.as_mut_ptr(),
            buffer.len(),
            &mut steps,
        )
    };
    match code {
        0 => Need::Never(steps),
        HELD => Need::Held(steps),
        by => Need::Refused(by),
    }
}
