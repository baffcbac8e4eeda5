//! Tables by hand, one for each sentence of request C-14.

use reference::brute::{Reached, Runs};
use reference::file::{self, RIGHTS};
use reference::filled::{compare, Library, Question};
use reference::generate::*;
use reference::need::{cells, HELD, NEVER};
use reference::random::Random;
use reference::report::{hex, Group, Report};
use reference::verdict::needed;

pub fn run(report: &mut Report, library: Library, random: &mut Random) {
    report.group("the sentences of the requests", 31, |group| {
        for case in all() {
            case.hold(group, library, random);
        }
    });
    report.group("a starting name destroyed is no way to hold", 3, |group| {
        let (draft, list) = remade();
        let contents = file::read(&draft.file()).unwrap();
        for (runs, wanted) in [(Runs::All, true), (Runs::Keeping, false)] {
            let reached = Reached::from(&contents, runs, 1, 50_000).unwrap();
            group.input(reached.some_holds(&cells(&list)) == wanted, || {
                format!("the brute search: not {wanted}")
            });
        }
        let case = Case::new(&draft, &list, NEVER, &REMADE_STEPS);
        case.hold(group, library, random);
    });
}

/// A table, a list, and what is answered and written.
struct Case {
    file: Vec<u8>,
    list: Vec<u8>,
    code: u8,
    steps: Vec<u8>,
}

impl Case {
    fn new(draft: &Draft, list: &[u8], code: u8, steps: &[[u8; 5]]) -> Case {
        Case {
            file: draft.file(),
            list: list.to_vec(),
            code,
            steps: steps.concat(),
        }
    }

    fn hold(&self, group: &mut Group, library: Library, random: &mut Random) {
        let (file, list) = (&self.file, &self.list);
        let length = needed(file);
        let account = compare(group, library, random, Question::new(file, list), length);
        let mut buffer = vec![170; length];
        let answer = (library.need)(file, list, &mut buffer);
        let mut wanted = self.steps.clone();
        wanted.resize(length, 170);
        let count = self.steps.len() as u64 / 5;
        let good = answer == (self.code, count) && account.code == self.code && buffer == wanted;
        group.demand(good, || {
            format!(
                "cells {list:?}: answer {answer:?}, wanted {} with {count}, bytes {}",
                self.code,
                hex(&buffer)
            )
        });
    }
}

const X: u8 = 255;

fn all() -> Vec<Case> {
    let mut all = one_rule();
    all.extend(order());
    all.extend(creates());
    all.extend(carried());
    all.extend(twelve());
    all
}

/// Twelve rights (request C-21): a cell that holds right 8 does not hold right 0, and
/// both bytes of a cell come.
fn twelve() -> Vec<Case> {
    let mut draft = three(RIGHTS);
    draft.put(0, 2, 8);
    draft.rules = vec![
        rule(2, &[[8, 0, 1]], &[[ENTER, 11, 0, 1]]),
        rule(2, &[[11, 0, 1]], &[[ENTER, 2, 0, 1]]),
        rule(2, &[[3, 0, 1]], &[[ENTER, 4, 0, 1]]),
    ];
    let [high, low] = [[0, 0, 2, X, X], [1, 0, 2, X, X]];
    vec![
        Case::new(&draft, &[8, 0, 2], HELD, &[]),
        Case::new(&draft, &[0, 0, 2], NEVER, &[high, low]),
        Case::new(&draft, &[11, 0, 2], HELD, &[high]),
        Case::new(&draft, &[3, 0, 2], NEVER, &[high, low]),
        Case::new(&draft, &[2, 0, 2, 11, 0, 2, 8, 0, 2], HELD, &[high, low]),
        Case::new(&draft, &[11, 0, 2, 10, 0, 2], NEVER, &[high, low]),
        Case::new(&draft, &[12, 0, 2], 41, &[]),
    ]
}

/// Rights that carry others (request C-19): "a press's cells still look at the
/// cell's own bits", and the rules' conditions at what they carry.
fn carried() -> Vec<Case> {
    let mut draft = three(3);
    draft.put(0, 2, 1);
    draft.rules = vec![
        rule(2, &[[0, 0, 1]], &[[ENTER, 2, 0, 1]]),
        rule(2, &[[2, 0, 1]], &[[ENTER, 1, 1, 1]]),
    ];
    let mut plain = draft.clone();
    plain.put(0, 2, 2);
    draft.carry(1, 0);
    let mut through = draft.clone();
    through.carries[1] = 0;
    through.carry(1, 2);
    through.carry(2, 0);
    let mut late = draft.clone();
    late.rules[0] = rule(2, &[[0, 0, 1]], &[[ENTER, 0, 0, 1]]);
    let entered = [0, 0, 2, X, X];
    vec![
        // What is carried is not held, and what carries lets it come.
        Case::new(&draft, &[1, 0, 2], HELD, &[]),
        Case::new(&draft, &[0, 0, 2], NEVER, &[entered]),
        Case::new(&draft, &[2, 0, 2], HELD, &[entered]),
        Case::new(&plain, &[0, 0, 2], NEVER, &[]),
        Case::new(&through, &[2, 0, 2], HELD, &[entered]),
        Case::new(&through, &[0, 0, 2], NEVER, &[entered]),
        Case::new(&late, &[0, 0, 2], HELD, &[entered]),
        Case::new(&late, &[0, 0, 2, 1, 0, 2], HELD, &[entered]),
        Case::new(&late, &[2, 0, 2], NEVER, &[entered]),
    ]
}

/// Names 0 and 1 are subjects, 2 is an object.
fn three(rights: u8) -> Draft {
    let mut draft = Draft::empty(rights);
    draft.kinds[..3].copy_from_slice(&[2, 2, 1]);
    draft
}

/// P1: who has right 0 on c may enter right 1 into any b's cell of c.
fn one_rule() -> Vec<Case> {
    let mut p1 = three(2);
    p1.put(0, 2, 0);
    p1.rules.push(rule(3, &[[0, 0, 2]], &[[ENTER, 1, 1, 2]]));
    let [own, other] = [[0, 0, 0, 2, X], [0, 0, 1, 2, X]];
    let case = |list: &[u8], code, steps: &[[u8; 5]]| Case::new(&p1, list, code, steps);
    let mut all = vec![
        // The empty list, and what the start holds.
        case(&[], HELD, &[]),
        case(&[0, 0, 2], HELD, &[]),
        case(&[0, 0, 2, 0, 0, 2], HELD, &[]),
        // The first matrix that holds them all, whatever their order.
        case(&[1, 0, 2], HELD, &[own]),
        case(&[1, 1, 2], HELD, &[own, other]),
        case(&[1, 0, 2, 1, 1, 2], HELD, &[own, other]),
        case(&[1, 1, 2, 1, 0, 2, 0, 0, 2], HELD, &[own, other]),
        case(&[1, 0, 2, 0, 0, 2, 1, 0, 2], HELD, &[own]),
        // None: one cell can come and the other cannot; all steps stand there.
        case(&[0, 1, 2], NEVER, &[own, other]),
        case(&[1, 1, 2, 0, 1, 2], NEVER, &[own, other]),
        case(&[0, 1, 2, 0, 0, 2], NEVER, &[own, other]),
        case(&[1, 0, 1], NEVER, &[own, other]),
    ];
    // Without names, without rules.
    all.push(Case::new(&Draft::empty(1), &[], HELD, &[]));
    // The row is the subject's.
    let mut pair = three(2);
    pair.put(0, 1, 1);
    all.push(Case::new(&pair, &[1, 0, 1], HELD, &[]));
    all.push(Case::new(&pair, &[1, 1, 0], NEVER, &[]));
    all
}

/// The judge's order, with no right that ends it, and without deletes and
/// destroys.
fn order() -> Vec<Case> {
    let mut draft = three(3);
    draft.put(0, 1, 1);
    draft.put(0, 0, 2);
    draft.rules = vec![
        // Enabled by the last rule, so a round later.
        rule(2, &[[0, 1, 0]], &[[ENTER, 2, 0, 1]]),
        rule(2, &[], &[[DELETE, 2, 0, 1]]),
        rule(1, &[], &[[DESTROY_SUBJECT, 0, 0, 0]]),
        // A spare blank before its two.
        rule(3, &[[1, 1, 2]], &[[ENTER, 0, 1, 2]]),
        rule(2, &[[1, 0, 1]], &[[ENTER, 1, 1, 0]]),
    ];
    let [zero, back, again, late, later] = [
        [3, 0, 0, 1, X],
        [4, 0, 1, X, X],
        [3, 0, 1, 0, X],
        [0, 1, 0, X, X],
        [0, 0, 1, X, X],
    ];
    let case = |list: &[u8], code, steps: &[[u8; 5]]| Case::new(&draft, list, code, steps);
    vec![
        case(&[0, 0, 1], HELD, &[zero]),
        case(&[1, 1, 0], HELD, &[zero, back]),
        // An enter of right 0 ends nothing.
        case(&[2, 1, 0], HELD, &[zero, back, late]),
        case(&[0, 1, 0], HELD, &[zero, back, late, again]),
        case(&[2, 0, 1], HELD, &[zero, back, late, again, later]),
        case(
            &[2, 0, 0, 2, 1, 1],
            NEVER,
            &[zero, back, late, again, later],
        ),
    ]
}

/// Creates are done in their turn, and a name that comes cannot be asked for.
fn creates() -> Vec<Case> {
    let mut first = Draft::empty(1);
    first.kinds[0] = 2;
    let mut last = first.clone();
    let [subject, object, enter] = [
        rule(1, &[], &[[CREATE_SUBJECT, 0, 0, 0]]),
        rule(1, &[], &[[CREATE_OBJECT, 0, 0, 0]]),
        rule(2, &[], &[[ENTER, 0, 0, 1]]),
    ];
    first.rules = vec![subject.clone(), object.clone(), enter.clone()];
    last.rules = vec![enter, object, subject];
    let made = [[0, 1, X, X, X], [1, 2, X, X, X], [2, 0, 0, X, X]];
    vec![
        Case::new(&first, &[0, 0, 0], HELD, &made),
        Case::new(&last, &[0, 0, 0], HELD, &[[0, 0, 0, X, X]]),
        Case::new(&first, &[], HELD, &[]),
        Case::new(&first, &[0, 1, 0], 41, &[]),
        Case::new(&first, &[0, 0, 1], 41, &[]),
    ]
}

/// The object 1 destroyed and made a subject would let right 1 into (0, 1).
fn remade() -> (Draft, Vec<u8>) {
    let mut draft = Draft::empty(2);
    draft.kinds[..2].copy_from_slice(&[2, 1]);
    draft.rules = vec![
        rule(1, &[], &[[DESTROY_OBJECT, 0, 0, 0]]),
        rule(1, &[], &[[CREATE_SUBJECT, 0, 0, 0]]),
        rule(1, &[], &[[ENTER, 0, 0, 0]]),
        rule(2, &[[0, 1, 1]], &[[ENTER, 1, 0, 1]]),
    ];
    (draft, vec![1, 0, 1])
}

const REMADE_STEPS: [[u8; 5]; 7] = [
    [1, 2, X, X, X],
    [2, 0, X, X, X],
    [2, 2, X, X, X],
    [3, 0, 0, X, X],
    [3, 0, 2, X, X],
    [3, 2, 0, X, X],
    [3, 2, 2, X, X],
];
