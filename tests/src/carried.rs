//! Tables by hand, one or more for each sentence of request C-19.

mod played;
mod verdicts;

pub use played::{played, Played};
pub use verdicts::{verdicts, Verdict};

use crate::file::{Set, RIGHTS};
use crate::generate::{rule, Draft, ENTER};

/// So many subjects, with these rights in cells.
pub fn subjects(rights: u8, count: usize, cells: &[(usize, usize, u8)]) -> Draft {
    let mut draft = Draft::empty(rights);
    draft.kinds[..count].fill(2);
    for &(s, o, right) in cells {
        draft.put(s, o, right);
    }
    draft
}

/// The draft with rights that carry others.
pub fn with(draft: &Draft, carries: &[(u8, u8)]) -> Draft {
    let mut draft = draft.clone();
    for &(right, other) in carries {
        draft.carry(right, other);
    }
    draft
}

/// Files that 44 refuses, each accepted without one bit.
pub fn wrong() -> Vec<Vec<u8>> {
    let mut all = Vec::new();
    for rights in 1..=RIGHTS {
        for right in 0..rights {
            for carried in rights..Set::BITS as u8 {
                let mut draft = subjects(rights, 1, &[(0, 0, 0)]);
                draft.rules = vec![rule(1, &[[0, 0, 0]], &[[ENTER, 0, 0, 0]])];
                draft.carry(right, carried);
                all.push(draft.file());
            }
        }
    }
    all
}
