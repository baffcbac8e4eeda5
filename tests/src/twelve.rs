//! Files and tables by hand, for the sentences of request C-21: twelve rights, and
//! two bytes, low byte first, for a cell and for what a right carries.

use crate::carried::{subjects, with, Played, Verdict};
use crate::file::{Set, RIGHTS};
use crate::generate::{
    rule, Draft, CREATE_OBJECT, CREATE_SUBJECT, DELETE, DESTROY_OBJECT, DESTROY_SUBJECT, ENTER,
};
use crate::judge::{SAFE, UNSAFE};
use crate::replay::LEAK;

const X: u8 = 255;

/// Bytes given as a file, and the refusal or 0.
pub struct Checked {
    pub what: String,
    pub file: Vec<u8>,
    pub refusal: u8,
}

/// A file without rules: the first and the last name are subjects, the second is an
/// object. Its lengths are written out, and not taken from the generators' writer.
struct Bytes {
    rights: u8,
    kinds: Vec<u8>,
    cells: Vec<u8>,
    carries: Vec<u8>,
}

impl Bytes {
    fn new(rights: u8) -> Bytes {
        let mut kinds = vec![0; 32];
        (kinds[0], kinds[1], kinds[31]) = (2, 1, 2);
        Bytes {
            rights,
            kinds,
            cells: vec![0; 2_048],
            carries: vec![0; 2 * usize::from(rights)],
        }
    }

    fn file(&self) -> Vec<u8> {
        let mut file = vec![self.rights, 3];
        let mut at = 14;
        let sections = [&self.kinds, &self.cells, &self.carries];
        for section in sections {
            let length = section.len();
            for number in [at, length] {
                file.extend([(number % 256) as u8, (number / 256) as u8]);
            }
            at += length;
        }
        file.extend(sections.into_iter().flatten());
        file
    }
}

fn checked_as(what: String, file: Vec<u8>, refusal: u8) -> Checked {
    Checked {
        what,
        file,
        refusal,
    }
}

pub fn checked() -> Vec<Checked> {
    let mut all = numbers();
    all.extend(bits());
    all.extend(lengths());
    all.push(checked_as("the longest file".to_string(), longest(), 0));
    all
}

/// "refusal 2 means 1 to 12".
fn numbers() -> Vec<Checked> {
    let number = |rights: u8| {
        let refusal = if (1..=12).contains(&rights) { 0 } else { 2 };
        checked_as(format!("g {rights}"), Bytes::new(rights).file(), refusal)
    };
    (0..=255).map(number).collect()
}

/// Each of the sixteen bits of a set, with each g: in the first cell and the last, in
/// cells that must be 0, and in what the first and the last right carry.
fn bits() -> Vec<Checked> {
    let mut all = Vec::new();
    for rights in 1..=12 {
        for bit in 0..16 {
            // Bits 0 to 7 are in the first byte, 8 to 15 in the second.
            let (byte, value) = (bit / 8, 1 << (bit % 8));
            let outside = bit >= usize::from(rights);
            // Cell (s, o) begins at 64 s + 2 o.
            for (s, o) in [(0, 0), (0, 1), (0, 31), (31, 0), (31, 31)] {
                let mut bytes = Bytes::new(rights);
                bytes.cells[64 * s + 2 * o + byte] = value;
                let what = format!("g {rights}, bit {bit} in ({s}, {o})");
                all.push(checked_as(what, bytes.file(), if outside { 7 } else { 0 }));
            }
            // An object's row, an absent name's row and column.
            for (s, o) in [(1, 0), (1, 1), (2, 31), (30, 30), (0, 30), (31, 2)] {
                let mut bytes = Bytes::new(rights);
                bytes.cells[64 * s + 2 * o + byte] = value;
                let what = format!("g {rights}, bit {bit} in ({s}, {o})");
                all.push(checked_as(what, bytes.file(), 7));
            }
            for right in [0, usize::from(rights) - 1] {
                let mut bytes = Bytes::new(rights);
                bytes.carries[2 * right + byte] = value;
                let what = format!("g {rights}, right {right} carries {bit}");
                all.push(checked_as(what, bytes.file(), if outside { 44 } else { 0 }));
            }
        }
    }
    all
}

/// "a cell and a carry entry are two bytes", "cells are 2,048 bytes".
fn lengths() -> Vec<Checked> {
    let mut all = Vec::new();
    for rights in 1..=12 {
        let g = usize::from(rights);
        for length in [0, 1, 1_023, 1_024, 1_025, 2_046, 2_047, 2_048, 2_049, 2_050] {
            let mut bytes = Bytes::new(rights);
            bytes.cells.resize(length, 0);
            let refusal = if length == 2_048 { 0 } else { 5 };
            let what = format!("g {rights}, {length} bytes of cells");
            all.push(checked_as(what, bytes.file(), refusal));
        }
        for length in [0, 1, g, 2 * g - 1, 2 * g, 2 * g + 1, 2 * g + 2, 24, 32] {
            let mut bytes = Bytes::new(rights);
            bytes.carries.resize(length, 0);
            let refusal = if length == 2 * g { 0 } else { 5 };
            let what = format!("g {rights}, {length} bytes of carries");
            // Before 6.
            bytes.kinds[30] = if refusal == 5 { 3 } else { 0 };
            all.push(checked_as(what, bytes.file(), refusal));
        }
        let what = format!("g {rights}, one byte for a set");
        all.push(checked_as(what, of_before(rights), 5));
    }
    all
}

/// A file of the format of before: a byte for each cell and for each right.
pub fn of_before(rights: u8) -> Vec<u8> {
    let mut bytes = Bytes::new(rights);
    bytes.cells.truncate(1_024);
    bytes.carries.truncate(usize::from(rights));
    bytes.file()
}

/// The longest accepted file, 3,494 bytes: twelve rights, all in all cells, each of
/// which carries all, and 32 rules of four conditions and six steps.
pub fn longest() -> Vec<u8> {
    let mut draft = Draft::empty(12);
    draft.kinds.fill(2);
    draft.cells.fill(0xFFF);
    draft.carries.fill(0xFFF);
    draft.rules = vec![rule(4, &[[11, 3, 3]; 4], &[[ENTER, 11, 3, 3]; 6]); 32];
    draft.file()
}

/// The table of the most steps that there can be, 10,916, and its right: 30 subjects,
/// both creates, all other rights into all cells, and the closing search. No file
/// needs a longer buffer, 59,540 bytes.
pub fn fullest() -> (Draft, u8) {
    let right = RIGHTS - 1;
    let mut draft = Draft::empty(RIGHTS);
    draft.kinds[2..].fill(2);
    for s in 2..32 {
        for o in 2..32 {
            draft.put(s, o, right);
        }
    }
    draft.rules = vec![
        rule(1, &[], &[[CREATE_SUBJECT, 0, 0, 0]]),
        rule(1, &[], &[[CREATE_OBJECT, 0, 0, 0]]),
    ];
    for other in 0..right {
        draft.rules.push(rule(2, &[], &[[ENTER, other, 0, 1]]));
    }
    draft.rules.push(rule(2, &[], &[[DELETE, right, 0, 1]]));
    let both = [[right, 0, 2], [right, 1, 2]];
    draft.rules.push(rule(3, &both, &[[ENTER, right, 0, 1]]));
    (draft, right)
}

fn verdict(what: &'static str, draft: Draft, right: u8, code: u8, steps: &[[u8; 5]]) -> Verdict {
    Verdict {
        what,
        draft,
        right,
        code,
        steps: steps.to_vec(),
    }
}

/// Verdicts in which a right and the one eight below it must be told apart, and both
/// bytes of a cell count.
pub fn verdicts() -> Vec<Verdict> {
    let mut all = Vec::new();
    for high in 8..RIGHTS {
        let low = high - 8;
        // Another right, in either byte.
        for asked in [5, 11 - low] {
            let table = |held: u8, tested: u8| {
                let mut draft = subjects(RIGHTS, 2, &[(0, 1, held)]);
                draft.rules = vec![rule(2, &[[tested, 0, 1]], &[[ENTER, asked, 1, 0]])];
                draft
            };
            let met = [[0, 0, 1, X, X]];
            all.push(verdict(
                "high tested",
                table(high, high),
                asked,
                UNSAFE,
                &met,
            ));
            all.push(verdict(
                "low is not high",
                table(low, high),
                asked,
                SAFE,
                &[],
            ));
            all.push(verdict(
                "high is not low",
                table(high, low),
                asked,
                SAFE,
                &[],
            ));
            for (one, other) in [(high, low), (low, high)] {
                let carried = with(&table(one, other), &[(one, other)]);
                all.push(verdict("carried across", carried, asked, UNSAFE, &met));
                let back = with(&table(one, other), &[(other, one)]);
                all.push(verdict("turned round", back, asked, SAFE, &[]));
                let through = with(&table(one, other), &[(one, 7), (7, other)]);
                all.push(verdict("through a third", through, asked, UNSAFE, &met));
            }
        }
        for (goes, stays) in [(high, low), (low, high)] {
            all.extend(one_cell(goes, stays));
        }
    }
    all
}

/// One right goes from a cell of one subject and comes back, and the other stays.
fn one_cell(goes: u8, stays: u8) -> Vec<Verdict> {
    let table = |held: &[u8], rules: &[Vec<u8>]| {
        let cells: Vec<(usize, usize, u8)> = held.iter().map(|&right| (0, 0, right)).collect();
        let mut draft = subjects(RIGHTS, 1, &cells);
        draft.rules = rules.to_vec();
        draft
    };
    let enter = |tested: u8| rule(2, &[[tested, 0, 1]], &[[ENTER, goes, 0, 1]]);
    let delete = rule(2, &[], &[[DELETE, goes, 0, 1]]);
    let closing = |tested: u8| table(&[goes, stays], &[delete.clone(), enter(tested)]);
    let once = [[0, 0, 0, X, X]];
    let both = [[0, 0, 0, X, X], [1, 0, 0, X, X]];
    vec![
        verdict(
            "entered beside the other",
            table(&[stays], &[enter(stays)]),
            goes,
            UNSAFE,
            &once,
        ),
        verdict(
            "the other entered, and it is not",
            table(&[stays], &[enter(stays)]),
            stays,
            SAFE,
            &once,
        ),
        verdict("P2", closing(stays), goes, UNSAFE, &both),
        verdict("P3", closing(goes), goes, SAFE, &[]),
        verdict("the one that stays", closing(stays), stays, SAFE, &[]),
    ]
}

/// Rule runs by which one byte of a cell, or both, must change, and no byte beside
/// them.
pub fn played() -> Vec<Played> {
    let all_rights: Set = 0xFFF;
    // Names 0, 1, 2 are subjects and 3 an object, and every cell is full.
    let mut full = subjects(RIGHTS, 3, &[]);
    full.kinds[3] = 1;
    for s in 0..3 {
        full.cells[32 * s..32 * s + 4].fill(all_rights);
    }
    let mut all = Vec::new();
    let play = Played::of_cells;
    let run = [0, 1, 2, X, X];
    for right in 0..RIGHTS {
        let other = (right + 8) % RIGHTS;
        let bit: Set = 1 << right;
        let mut enters = full.clone();
        enters.cells[32 + 2] = all_rights - bit;
        enters.rules = vec![rule(2, &[], &[[ENTER, right, 0, 1]])];
        let full_cell = [(1, 2, all_rights)];
        all.push(play(
            "enters",
            &enters,
            &[run],
            right,
            (LEAK, 0),
            &full_cell,
        ));
        all.push(play("only it", &enters, &[run], other, (0, 0), &full_cell));
        all.push(play(
            "no more",
            &full_with(&full, &enters.rules),
            &[run],
            right,
            (0, 0),
            &[],
        ));
        let mut alone = subjects(RIGHTS, 3, &[]);
        alone.rules = enters.rules.clone();
        all.push(play(
            "alone",
            &alone,
            &[run],
            right,
            (LEAK, 0),
            &[(1, 2, bit)],
        ));
        let deletes = full_with(&full, &[rule(2, &[], &[[DELETE, right, 0, 1]])]);
        let without = [(1, 2, all_rights - bit)];
        all.push(play("deletes", &deletes, &[run], right, (0, 0), &without));
        let mut tests = full.clone();
        tests.cells[32 + 2] = all_rights - bit;
        tests.rules = vec![rule(2, &[[right, 0, 1]], &[[DELETE, other, 0, 1]])];
        all.push(play("lacking", &tests, &[run], right, (14, 0), &[]));
        let mut holds = alone.clone();
        holds.cells[32 + 2] = bit;
        holds.rules = vec![rule(2, &[[right, 0, 1]], &[[ENTER, other, 0, 1]])];
        let both = [(1, 2, bit | 1 << other)];
        all.push(play("holding", &holds, &[run], other, (LEAK, 0), &both));
    }
    all.extend(destroyed(&full));
    all
}

fn full_with(full: &Draft, rules: &[Vec<u8>]) -> Draft {
    let mut draft = full.clone();
    draft.rules = rules.to_vec();
    draft
}

/// A destroy leaves no byte of a row or a column, and a name that comes anew has none.
fn destroyed(full: &Draft) -> Vec<Played> {
    let rules = [
        rule(1, &[], &[[DESTROY_SUBJECT, 0, 0, 0]]),
        rule(1, &[], &[[DESTROY_OBJECT, 0, 0, 0]]),
        rule(1, &[], &[[CREATE_SUBJECT, 0, 0, 0]]),
        rule(1, &[], &[[CREATE_OBJECT, 0, 0, 0]]),
    ];
    let draft = full_with(full, &rules);
    let gone = |names: &[usize]| -> Vec<(usize, usize, Set)> {
        let pairs = (0..3).flat_map(|s| (0..4).map(move |o| (s, o)));
        let crossed = pairs.filter(|(s, o)| names.contains(s) || names.contains(o));
        crossed.map(|(s, o)| (s, o, 0)).collect()
    };
    let run = |number: u8, name: u8| [number, name, X, X, X];
    let play = |what, trace: &[[u8; 5]], kinds: &[(usize, u8)], names: &[usize]| Played {
        what,
        draft: draft.clone(),
        trace: trace.to_vec(),
        right: RIGHTS - 1,
        answer: (0, 0),
        kinds: kinds.to_vec(),
        cells: gone(names),
    };
    vec![
        play("a subject goes", &[run(0, 1)], &[(1, 0)], &[1]),
        play("the first one", &[run(0, 0)], &[(0, 0)], &[0]),
        play("an object goes", &[run(1, 3)], &[(3, 0)], &[3]),
        play("and comes anew", &[run(1, 3), run(2, 3)], &[(3, 2)], &[3]),
        play("as an object", &[run(0, 2), run(3, 2)], &[(2, 1)], &[2]),
        play(
            "all go",
            &[run(0, 0), run(0, 1), run(0, 2), run(1, 3)],
            &[(0, 0), (1, 0), (2, 0), (3, 0)],
            &[0, 1, 2, 3],
        ),
    ]
}
