//! Verdicts, with their steps.

use super::{subjects, with};
use crate::file::RIGHTS;
use crate::generate::{rule, Draft, CREATE_SUBJECT, DELETE, ENTER};
use crate::judge::{SAFE, UNSAFE};

const X: u8 = 255;

/// A table, a right, and what is answered and written.
pub struct Verdict {
    pub what: &'static str,
    pub draft: Draft,
    pub right: u8,
    pub code: u8,
    pub steps: Vec<[u8; 5]>,
}

fn verdict(what: &'static str, draft: &Draft, right: u8, code: u8, steps: &[[u8; 5]]) -> Verdict {
    Verdict {
        what,
        draft: draft.clone(),
        right,
        code,
        steps: steps.to_vec(),
    }
}

pub fn verdicts() -> Vec<Verdict> {
    let mut all = carrying();
    all.extend(cycles());
    all.extend(own_bits());
    all.extend(closing());
    all.extend(creating());
    all
}

const READ: u8 = 0;
const APPROVE: u8 = 1;
const PRINT: u8 = 2;

/// Who reads c may let any b print it; 0 may approve 2.
fn shades() -> Draft {
    let mut draft = Draft::empty(3);
    draft.kinds[..3].copy_from_slice(&[2, 2, 1]);
    draft.put(0, 2, APPROVE);
    let lend = rule(3, &[[READ, 0, 2]], &[[ENTER, PRINT, 1, 2]]);
    draft.rules.push(lend);
    draft
}

/// Right 0 in (0, 1); who has the tested right over b may be held by b with 0.
fn tests(rights: u8, tested: u8) -> Draft {
    let mut draft = subjects(rights, 2, &[(0, 1, 0)]);
    let back = rule(2, &[[tested, 0, 1]], &[[ENTER, 0, 1, 0]]);
    draft.rules.push(back);
    draft
}

/// "Who may approve a shade may also read it"; "Carrying goes on through further
/// rights".
fn carrying() -> Vec<Verdict> {
    let shades = shades();
    let done = [[0, 0, 0, 2, X]];
    let back = [[0, 0, 1, X, X]];
    let last = RIGHTS - 1;
    let chain: Vec<(u8, u8)> = (0..last).map(|right| (right, right + 1)).collect();
    // Down through all but the last, and then to it.
    let downwards = (1..last - 1).rev().map(|right| (right + 1, right));
    let mut falling = vec![(0, last - 1)];
    falling.extend(downwards);
    falling.push((1, last));
    let mut all = vec![
        verdict("nothing carries", &shades, PRINT, SAFE, &[]),
        verdict(
            "approve carries read",
            &with(&shades, &[(APPROVE, READ)]),
            PRINT,
            UNSAFE,
            &done,
        ),
        verdict(
            "read carries approve",
            &with(&shades, &[(READ, APPROVE)]),
            PRINT,
            SAFE,
            &[],
        ),
        verdict(
            "a chain of three",
            &with(&tests(3, 2), &[(0, 1), (1, 2)]),
            0,
            UNSAFE,
            &back,
        ),
        verdict(
            "the chain's first link alone",
            &with(&tests(3, 2), &[(0, 1)]),
            0,
            SAFE,
            &[],
        ),
        verdict(
            "the chain's second link alone",
            &with(&tests(3, 2), &[(1, 2)]),
            0,
            SAFE,
            &[],
        ),
        verdict(
            "a chain of all rights",
            &with(&tests(RIGHTS, last), &chain),
            0,
            UNSAFE,
            &back,
        ),
        verdict(
            "a chain of all rights, downwards",
            &with(&tests(RIGHTS, last), &falling),
            0,
            UNSAFE,
            &back,
        ),
        verdict(
            "two rights that carry the tested one, neither in the cell",
            &with(&tests(3, 2), &[(1, 2), (2, 0)]),
            0,
            SAFE,
            &[],
        ),
    ];
    // Each link of the long chains is needed.
    for links in [chain, falling] {
        for left_out in 0..links.len() {
            let mut links = links.clone();
            links.remove(left_out);
            let draft = with(&tests(RIGHTS, last), &links);
            all.push(verdict("a link is missing", &draft, 0, SAFE, &[]));
        }
    }
    all
}

/// "each right carries itself": in the file or not.
fn cycles() -> Vec<Verdict> {
    let back = [[0, 0, 1, X, X]];
    let mut all = vec![
        verdict("each right carries itself", &tests(3, 0), 0, UNSAFE, &back),
        verdict(
            "a right that carries itself in the file",
            &with(&tests(3, 0), &[(0, 0)]),
            0,
            UNSAFE,
            &back,
        ),
        verdict(
            "another right than the one that carries itself",
            &with(&tests(3, 1), &[(0, 0), (1, 1)]),
            0,
            SAFE,
            &[],
        ),
        verdict(
            "all carry all",
            &with(&tests(2, 1), &[(0, 0), (0, 1), (1, 0), (1, 1)]),
            0,
            UNSAFE,
            &back,
        ),
        verdict(
            "a cycle that the cell's right is not in",
            &with(&tests(3, 2), &[(1, 2), (2, 1)]),
            0,
            SAFE,
            &[],
        ),
    ];
    for tested in 0..3 {
        let round = with(&tests(3, tested), &[(0, 1), (1, 2), (2, 0)]);
        all.push(verdict("a cycle of three", &round, 0, UNSAFE, &back));
        let other = with(&tests(3, tested), &[(0, 2), (2, 1), (1, 0)]);
        all.push(verdict("the cycle turned round", &other, 0, UNSAFE, &back));
    }
    all
}

/// "Enter, .. leak .. still look at the cell's own bits."
fn own_bits() -> Vec<Verdict> {
    // Right 1 is handed on, and carries 0.
    let mut handed = with(&subjects(2, 2, &[(0, 0, 1)]), &[(1, 0)]);
    handed.rules = vec![rule(2, &[[0, 0, 0]], &[[ENTER, 1, 0, 1]])];
    // Where 1 stands, 0 may come: the cell meets it already, and yet lacks it.
    let mut comes = with(&subjects(2, 1, &[(0, 0, 1)]), &[(1, 0)]);
    comes.rules = vec![rule(2, &[[0, 0, 1]], &[[ENTER, 0, 0, 1]])];
    // Useful by its own bit alone: 0 comes where 1 is, and 2 needs nothing else.
    let mut useful = with(&subjects(3, 2, &[(0, 1, 1), (1, 0, 1)]), &[(1, 0)]);
    useful.rules = vec![
        rule(2, &[[0, 0, 1]], &[[ENTER, 0, 0, 1]]),
        rule(2, &[[2, 0, 1]], &[[ENTER, 1, 1, 1]]),
    ];
    let [one, other] = [[0, 0, 1, X, X], [0, 1, 0, X, X]];
    vec![
        verdict(
            "safe although it is met everywhere",
            &handed,
            0,
            SAFE,
            &[one],
        ),
        verdict(
            "unsafe although it is met",
            &comes,
            0,
            UNSAFE,
            &[[0, 0, 0, X, X]],
        ),
        verdict("entered where it is met", &useful, 2, SAFE, &[one, other]),
        verdict("the right that carries", &handed, 1, UNSAFE, &[one]),
    ]
}

/// "In the closing search the enter's conditions are tested with r out of the
/// cell: a right that stays there and carries r still meets a condition on r."
fn closing() -> Vec<Verdict> {
    let delete = rule(2, &[], &[[DELETE, 0, 0, 1]]);
    let enter = |tested: u8| rule(2, &[[tested, 0, 1]], &[[ENTER, 0, 0, 1]]);
    let table = |rights: u8, held: &[u8], tested: u8, carries: &[(u8, u8)]| {
        let cells: Vec<(usize, usize, u8)> = held.iter().map(|&right| (0, 0, right)).collect();
        let mut draft = with(&subjects(rights, 1, &cells), carries);
        draft.rules = vec![delete.clone(), enter(tested)];
        draft
    };
    let both = [[0, 0, 0, X, X], [1, 0, 0, X, X]];
    // The delete's own condition holds by a right that carries.
    let mut delete_tests = table(2, &[0, 1], 1, &[(1, 0)]);
    delete_tests.rules[0] = rule(2, &[[0, 0, 1]], &[[DELETE, 0, 0, 1]]);
    // Right 1 carries 0 and is in (1, 1), where 0 can neither go nor come, by 2.
    let mut elsewhere = with(
        &subjects(3, 2, &[(0, 0, 0), (0, 0, 2), (1, 1, 1)]),
        &[(1, 0)],
    );
    elsewhere.rules = vec![
        rule(2, &[[2, 0, 1]], &[[DELETE, 0, 0, 1]]),
        rule(2, &[[2, 0, 1], [0, 0, 1]], &[[ENTER, 0, 0, 1]]),
    ];
    let mut by_another = elsewhere.clone();
    by_another.rules[1] = rule(3, &[[2, 0, 1], [0, 2, 2]], &[[ENTER, 0, 0, 1]]);
    vec![
        verdict("P2", &table(2, &[0, 1], 1, &[]), 0, UNSAFE, &both),
        verdict("P3", &table(2, &[0, 1], 0, &[]), 0, SAFE, &[]),
        verdict(
            "P2, the right carried by one that stays",
            &table(2, &[0, 1], 1, &[(1, 0)]),
            0,
            UNSAFE,
            &both,
        ),
        verdict(
            "P3, the right carried by one that stays",
            &table(2, &[0, 1], 0, &[(1, 0)]),
            0,
            UNSAFE,
            &both,
        ),
        verdict(
            "P3, the right carries the one that stays",
            &table(2, &[0, 1], 0, &[(0, 1)]),
            0,
            SAFE,
            &[],
        ),
        verdict(
            "P3, the right carries itself",
            &table(2, &[0, 1], 0, &[(0, 0)]),
            0,
            SAFE,
            &[],
        ),
        verdict(
            "P3, carried through a right that is nowhere",
            &table(3, &[0, 2], 0, &[(2, 1), (1, 0)]),
            0,
            UNSAFE,
            &both,
        ),
        verdict(
            "what the right alone meets goes with it",
            &table(2, &[0], 1, &[(0, 1)]),
            0,
            SAFE,
            &[],
        ),
        verdict(
            "what another right meets too stays",
            &table(3, &[0, 2], 1, &[(0, 1), (2, 1)]),
            0,
            UNSAFE,
            &both,
        ),
        verdict(
            "the delete's condition by carrying",
            &delete_tests,
            0,
            UNSAFE,
            &both,
        ),
        verdict(
            "a right that carries in another cell is no help",
            &elsewhere,
            0,
            SAFE,
            &[],
        ),
        verdict(
            "a right that carries in another cell helps",
            &by_another,
            0,
            UNSAFE,
            &[[0, 0, 0, X, X], [1, 0, 0, 1, X]],
        ),
    ]
}

/// A create's condition, and a right that comes in the rounds and carries.
fn creating() -> Vec<Verdict> {
    let mut creates = with(&subjects(2, 1, &[(0, 0, 1)]), &[(1, 0)]);
    creates.rules = vec![
        rule(2, &[[0, 0, 0]], &[[CREATE_SUBJECT, 0, 1, 0]]),
        rule(2, &[[0, 0, 0]], &[[ENTER, 0, 1, 0]]),
    ];
    let mut comes = with(&subjects(3, 2, &[(0, 0, 2)]), &[(1, 0)]);
    comes.rules = vec![
        // Enabled by the second rule, so a round later.
        rule(2, &[[0, 0, 1]], &[[ENTER, 0, 1, 0]]),
        rule(2, &[[2, 0, 0]], &[[ENTER, 1, 0, 1]]),
    ];
    let [own, other] = [[1, 0, 0, X, X], [1, 0, 1, X, X]];
    let nothing = [&creates, &comes].map(Draft::carrying_nothing);
    vec![
        verdict(
            "a create by carrying",
            &creates,
            0,
            UNSAFE,
            &[[0, 0, 1, X, X], own],
        ),
        verdict("no create without carrying", &nothing[0], 0, SAFE, &[]),
        verdict(
            "a right that comes and carries",
            &comes,
            0,
            UNSAFE,
            &[own, other, [0, 0, 0, X, X]],
        ),
        verdict("a right that comes", &nothing[1], 0, SAFE, &[own, other]),
    ]
}
