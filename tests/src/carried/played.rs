//! Rule runs and replays.

use super::{subjects, with};
use crate::file::Set;
use crate::generate::{rule, Draft, DELETE, ENTER};
use crate::replay::LEAK;

const X: u8 = 255;

/// A table, a rule run or a trace, and what is answered.
pub struct Played {
    pub what: &'static str,
    pub draft: Draft,
    pub trace: Vec<[u8; 5]>,
    pub right: u8,
    pub answer: (u8, u64),
    /// The names that are otherwise after all rule runs, and their kinds.
    pub kinds: Vec<(usize, u8)>,
    /// The cells that are otherwise then: subject, name, rights.
    pub cells: Vec<(usize, usize, Set)>,
}

impl Played {
    /// One after which all kinds are as they were.
    pub fn of_cells(
        what: &'static str,
        draft: &Draft,
        trace: &[[u8; 5]],
        right: u8,
        answer: (u8, u64),
        cells: &[(usize, usize, Set)],
    ) -> Played {
        Played {
            what,
            draft: draft.clone(),
            trace: trace.to_vec(),
            right,
            answer,
            kinds: Vec::new(),
            cells: cells.to_vec(),
        }
    }

    /// The file after all rule runs of the trace, refused ones included.
    pub fn file_after(&self) -> Vec<u8> {
        let mut draft = self.draft.clone();
        for &(name, kind) in &self.kinds {
            draft.kinds[name] = kind;
        }
        for &(s, o, rights) in &self.cells {
            draft.cells[32 * s + o] = rights;
        }
        draft.file()
    }
}

/// Runs of single rules on one cell that holds `held`; what stands there then.
pub fn played() -> Vec<Played> {
    let table = |held: &[u8], carries: &[(u8, u8)], rules: &[Vec<u8>]| {
        let cells: Vec<(usize, usize, u8)> = held.iter().map(|&right| (0, 0, right)).collect();
        let mut draft = with(&subjects(3, 1, &cells), carries);
        draft.rules = rules.to_vec();
        draft
    };
    let enter = |tested: &[[u8; 3]], right: u8| rule(1, tested, &[[ENTER, right, 0, 0]]);
    let delete = |tested: &[[u8; 3]], right: u8| rule(1, tested, &[[DELETE, right, 0, 0]]);
    let run = |number: u8| [number, 0, X, X, X];
    let play = |what, draft: &Draft, trace: &[[u8; 5]], right, answer, after: Option<Set>| {
        let cells: Vec<_> = after.map(|rights| (0, 0, rights)).into_iter().collect();
        Played::of_cells(what, draft, trace, right, answer, &cells)
    };
    let if_0 = [[0, 0, 0]];
    let by_1 = table(&[1], &[(1, 0)], &[enter(&if_0, 2)]);
    let by_none = table(&[1], &[(0, 1)], &[enter(&if_0, 2)]);
    let chain = table(&[2], &[(2, 1), (1, 0)], &[enter(&if_0, 1)]);
    // Right 1 carries all; entering it, or deleting it, is about its own bit.
    let all = [(1, 0), (1, 1), (1, 2)];
    let enters_1 = table(&[], &all, &[enter(&[], 1), enter(&if_0, 2)]);
    let deletes = table(&[1, 2], &all, &[delete(&if_0, 0), delete(&if_0, 1)]);
    let enters_0 = table(&[1], &all, &[enter(&[], 0)]);
    // Conditions are tested before the first step.
    let two_steps = rule(1, &if_0, &[[DELETE, 1, 0, 0], [ENTER, 0, 0, 0]]);
    let both = table(&[1], &[(1, 0)], &[two_steps, enter(&if_0, 1)]);
    vec![
        play(
            "a carried right holds",
            &by_1,
            &[run(0)],
            0,
            (0, 0),
            Some(6),
        ),
        play(
            "and leaks what it enters",
            &by_1,
            &[run(0)],
            2,
            (LEAK, 0),
            Some(6),
        ),
        play(
            "one that carries it not",
            &by_none,
            &[run(0)],
            0,
            (14, 0),
            None,
        ),
        play(
            "through a further right",
            &chain,
            &[run(0)],
            0,
            (0, 0),
            Some(6),
        ),
        play(
            "entering what carries enters its own bit",
            &enters_1,
            &[run(0), run(1)],
            0,
            (0, 0),
            Some(6),
        ),
        play(
            "which is a leak of it",
            &enters_1,
            &[run(0)],
            1,
            (LEAK, 0),
            Some(2),
        ),
        play("and not before", &enters_1, &[run(1)], 0, (14, 0), None),
        play(
            "deleting what is met and not there changes nothing",
            &deletes,
            &[run(0), run(0)],
            0,
            (0, 0),
            Some(6),
        ),
        play(
            "deleting what carries takes all with it",
            &deletes,
            &[run(1), run(0)],
            1,
            (14, 1),
            Some(4),
        ),
        play(
            "a right that is met leaks when it is entered",
            &enters_0,
            &[run(0)],
            0,
            (LEAK, 0),
            Some(3),
        ),
        play(
            "and not once more",
            &enters_0,
            &[run(0), run(0)],
            1,
            (0, 0),
            Some(3),
        ),
        play(
            "tested before the first step",
            &both,
            &[run(0), run(1)],
            2,
            (0, 0),
            Some(3),
        ),
    ]
}
