//! A table in arrays, as the benchmark's judges want it.

use reference::file::{self, Contents, Set, Step, CELLS, NAMES};
use std::ops::Range;

#[derive(Clone)]
pub struct State {
    pub kinds: [u8; NAMES],
    pub cells: [Set; CELLS],
}

#[derive(Clone, Copy, PartialEq, Eq)]
pub enum Kind {
    Enter,
    Delete,
    CreateSubject,
    CreateObject,
    Destroy,
}

pub struct Rule {
    pub blanks: usize,
    /// The bits of the rights that carry the one that is tested, subject blank,
    /// object blank.
    pub conditions: Vec<(Set, usize, usize)>,
    pub kind: Kind,
    /// The bit that is entered or deleted, 0 in other kinds.
    pub bit: Set,
    pub first: usize,
    pub second: usize,
    /// What a place has in each position: all names for a blank, 0 for one that
    /// nothing names, 255 from k on.
    pub names: [Range<usize>; 4],
}

pub struct Table {
    pub start: State,
    pub rules: Vec<Rule>,
}

/// A step of the listing: the rule and its actuals, 255 from k on.
pub type Written = (u8, [u8; 4]);

/// What a judge found.
pub struct Answer {
    pub is_unsafe: bool,
    pub rounds: u64,
    pub steps: Vec<Written>,
}

impl State {
    pub fn lowest_absent(&self) -> Option<usize> {
        self.kinds.iter().position(|kind| *kind == 0)
    }

    /// Whether the cell has the right of this bit, or one of several.
    pub fn has(&self, subject: usize, object: usize, bits: Set) -> bool {
        self.cells[(32 * subject + object) & 1023] & bits != 0
    }
}

fn names(rule: &file::Rule, position: usize) -> Range<usize> {
    if rule.spare.contains(&position) {
        0..1
    } else if position < rule.blanks {
        0..32
    } else {
        255..256
    }
}

impl Table {
    pub fn new(contents: &Contents) -> Table {
        let matrix = &contents.matrix;
        let start = State {
            kinds: matrix.kinds,
            cells: matrix.cells,
        };
        let rules = contents.rules.iter().map(|rule| {
            assert!(rule.steps.len() == 1);
            let (kind, bit, first, second) = match rule.steps[0] {
                Step::Enter {
                    right,
                    subject,
                    object,
                } => (Kind::Enter, 1 << right, subject, object),
                Step::Delete {
                    right,
                    subject,
                    object,
                } => (Kind::Delete, 1 << right, subject, object),
                Step::CreateSubject(blank) => (Kind::CreateSubject, 0, blank, blank),
                Step::CreateObject(blank) => (Kind::CreateObject, 0, blank, blank),
                Step::DestroySubject(blank) | Step::DestroyObject(blank) => {
                    (Kind::Destroy, 0, blank, blank)
                }
            };
            Rule {
                blanks: rule.blanks,
                conditions: rule
                    .conditions
                    .iter()
                    .map(|test| (test.carriers, test.subject, test.object))
                    .collect(),
                kind,
                bit,
                first,
                second,
                names: std::array::from_fn(|position| names(rule, position)),
            }
        });
        Table {
            start,
            rules: rules.collect(),
        }
    }
}

/// What the desk program prints for an answer.
pub fn listing(table: &Table, answer: &Answer) -> String {
    if !answer.is_unsafe {
        return format!("SAFE {}\n", answer.steps.len());
    }
    let mut text = format!("UNSAFE {}\n", answer.steps.len());
    for (rule, actuals) in &answer.steps {
        text += &rule.to_string();
        for actual in &actuals[..table.rules[*rule as usize].blanks] {
            text += &format!(" {actual}");
        }
        text.push('\n');
    }
    text
}
