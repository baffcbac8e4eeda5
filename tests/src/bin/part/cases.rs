//! Tables by hand, one or more for each sentence of request C-15.

use reference::file::RIGHTS;
use reference::generate::*;
use reference::judge::{SAFE, UNSAFE};
use reference::random::Random;
use reference::report::{hex, Group, Report};
use reference::verdict::{compare, needed, part, Library, Question};

pub fn run(report: &mut Report, library: Library, random: &mut Random) {
    report.group("the sentences of the requests", 42, |group| {
        for case in all() {
            case.hold(group, library, random, needed(&case.file));
        }
    });
    report.group("23 and 24 count the whole", 46, |group| {
        whole_counts(group, library, random)
    });
}

/// A table, a right, a list, and what is answered and written.
struct Case {
    file: Vec<u8>,
    right: u8,
    trusted: Vec<u8>,
    code: u8,
    steps: Vec<u8>,
}

impl Case {
    fn new(draft: &Draft, right: u8, trusted: &[u8], code: u8, steps: &[[u8; 5]]) -> Case {
        Case {
            file: draft.file(),
            right,
            trusted: trusted.to_vec(),
            code,
            steps: steps.concat(),
        }
    }

    fn hold(&self, group: &mut Group, library: Library, random: &mut Random, length: usize) {
        let question = Question::new(&self.file, self.right).without(&self.trusted);
        let (account, _) = compare(group, library, random, question, length);
        let mut buffer = vec![170; length];
        let answer = (library.judge)(question, &mut buffer);
        let mut wanted = self.steps.clone();
        wanted.resize(length, 170);
        let count = self.steps.len() as u64 / 5;
        let good = answer == (self.code, count) && account.code == self.code && buffer == wanted;
        group.demand(good, || {
            format!(
                "answer {answer:?}, wanted {} with {count}, bytes {}: {}",
                self.code,
                hex(&buffer),
                question.shown()
            )
        });
    }
}

const X: u8 = 255;

fn all() -> Vec<Case> {
    let mut all = one_rule();
    all.extend(rows_and_columns());
    all.extend(created());
    all.extend(closing());
    all.extend(steps_of_the_part());
    all.extend(carried());
    all.extend(twelve());
    all
}

/// Twelve rights (request C-21): whoever is left out goes with both bytes of the cells
/// in row and column.
fn twelve() -> Vec<Case> {
    let mut draft = Draft::empty(RIGHTS);
    draft.kinds[..3].copy_from_slice(&[2, 2, 2]);
    for (s, o, right) in [(0, 1, 8), (0, 1, 0), (1, 2, 3), (2, 0, 11)] {
        draft.put(s, o, right);
    }
    draft.rules = vec![
        rule(2, &[[8, 0, 1]], &[[ENTER, 10, 1, 0]]),
        rule(2, &[[11, 0, 1]], &[[ENTER, 10, 0, 1]]),
    ];
    let [first, second] = [[0, 0, 1, X, X], [1, 2, 0, X, X]];
    vec![
        Case::new(&draft, 10, &[], UNSAFE, &[first]),
        Case::new(&draft, 10, &[1], UNSAFE, &[second]),
        Case::new(&draft, 10, &[2], UNSAFE, &[first]),
        Case::new(&draft, 10, &[0], SAFE, &[]),
        Case::new(&draft, 2, &[], SAFE, &[first, second]),
        Case::new(&draft, 11, &[1], SAFE, &[second]),
        Case::new(&draft, 12, &[1], 21, &[]),
    ]
}

/// Rights carry others in the part as in the whole (request C-19).
fn carried() -> Vec<Case> {
    let mut draft = Draft::empty(3);
    draft.kinds[..3].copy_from_slice(&[2, 2, 1]);
    draft.put(0, 2, 1);
    draft.put(1, 2, 2);
    draft.rules.push(rule(2, &[[0, 0, 1]], &[[ENTER, 0, 0, 1]]));
    let plain = draft.clone();
    draft.carry(2, 1);
    draft.carry(1, 0);
    // The closing search: what stays in the cell carries what went.
    let mut closing = Draft::empty(2);
    closing.kinds[..2].copy_from_slice(&[2, 2]);
    for name in [0, 1] {
        closing.put(name, name, 0);
        closing.put(name, name, 1);
    }
    closing.carry(1, 0);
    closing.rules = vec![
        rule(2, &[], &[[DELETE, 0, 0, 1]]),
        rule(2, &[[0, 0, 1]], &[[ENTER, 0, 0, 1]]),
    ];
    vec![
        Case::new(&draft, 0, &[], UNSAFE, &[[0, 0, 2, X, X]]),
        Case::new(&draft, 0, &[0], UNSAFE, &[[0, 1, 2, X, X]]),
        Case::new(&draft, 0, &[1], UNSAFE, &[[0, 0, 2, X, X]]),
        Case::new(&draft, 0, &[0, 1], SAFE, &[]),
        Case::new(&plain, 0, &[0], SAFE, &[]),
        Case::new(
            &closing,
            0,
            &[0],
            UNSAFE,
            &[[0, 1, 1, X, X], [1, 1, 1, X, X]],
        ),
        Case::new(&closing.carrying_nothing(), 0, &[0], SAFE, &[]),
    ]
}

/// P1: names 0 and 1 are subjects, 2 is an object on which 0 has right 0; who has
/// right 0 on c may enter right 1 into any b's cell of c.
fn one_rule() -> Vec<Case> {
    let mut p1 = Draft::empty(2);
    p1.kinds[..3].copy_from_slice(&[2, 2, 1]);
    p1.put(0, 2, 0);
    p1.rules.push(rule(3, &[[0, 0, 2]], &[[ENTER, 1, 1, 2]]));
    let case = |list: &[u8], code, steps: &[[u8; 5]]| Case::new(&p1, 1, list, code, steps);
    vec![
        // Nobody is trusted: the judge.
        case(&[], UNSAFE, &[[0, 0, 0, 2, X]]),
        // Who grants is gone, or what is granted on.
        case(&[0], SAFE, &[]),
        case(&[2], SAFE, &[]),
        // Who could be granted to is gone, and not who grants.
        case(&[1], UNSAFE, &[[0, 0, 0, 2, X]]),
        case(&[1, 0], SAFE, &[]),
        case(&[2, 0, 1], SAFE, &[]),
        // Absent, above 31, listed before.
        case(&[3], 42, &[]),
        case(&[1, 31], 42, &[]),
        case(&[32], 42, &[]),
        case(&[1, 255], 42, &[]),
        case(&[1, 1], 42, &[]),
        case(&[1, 2, 1], 42, &[]),
    ]
}

/// Both go: what others hold over a trusted name, and what it holds.
fn rows_and_columns() -> Vec<Case> {
    let mut pair = Draft::empty(2);
    pair.kinds[..2].copy_from_slice(&[2, 2]);
    pair.put(0, 1, 0);
    // By a cell of the row of 0 and the column of 1.
    let mut over = pair.clone();
    over.rules.push(rule(2, &[[0, 0, 1]], &[[ENTER, 1, 0, 0]]));
    let mut under = pair.clone();
    under.rules.push(rule(2, &[[0, 0, 1]], &[[ENTER, 1, 1, 1]]));
    // Whoever exists is enough, and then whoever else.
    let mut anybody = pair;
    anybody.rules.push(rule(2, &[], &[[ENTER, 1, 1, 0]]));
    vec![
        Case::new(&over, 1, &[], UNSAFE, &[[0, 0, 1, X, X]]),
        Case::new(&over, 1, &[1], SAFE, &[]),
        Case::new(&under, 1, &[], UNSAFE, &[[0, 0, 1, X, X]]),
        Case::new(&under, 1, &[0], SAFE, &[]),
        Case::new(&anybody, 1, &[0], UNSAFE, &[[0, 1, 1, X, X]]),
        Case::new(&anybody, 1, &[0, 1], SAFE, &[]),
    ]
}

/// A created name is the lowest that is absent in the whole, whoever is listed.
fn created() -> Vec<Case> {
    let mut draft = Draft::empty(1);
    for name in [0, 1, 3] {
        draft.kinds[name] = 2;
    }
    draft.rules = vec![
        rule(1, &[], &[[CREATE_OBJECT, 0, 0, 0]]),
        rule(1, &[], &[[CREATE_SUBJECT, 0, 0, 0]]),
        rule(2, &[], &[[ENTER, 0, 0, 1]]),
    ];
    let [object, subject] = [[0, 2, X, X, X], [1, 4, X, X, X]];
    let case = |list: &[u8], last: [u8; 5]| {
        let steps = [object, subject, last];
        Case::new(&draft, 0, list, UNSAFE, &steps)
    };
    // Names 0 to 29, each one listed: 30 and 31 are left.
    let mut full = draft.clone();
    full.kinds[..30].fill(2);
    let all: Vec<u8> = (0..30).rev().collect();
    let made = [[0, 30, X, X, X], [1, 31, X, X, X], [2, 31, 30, X, X]];
    // A name that a rule creates is absent when the list is read.
    let mut spare = Draft::empty(1);
    spare.kinds[0] = 2;
    spare.rules = vec![
        rule(2, &[], &[[CREATE_SUBJECT, 0, 1, 0]]),
        rule(3, &[], &[[ENTER, 0, 1, 2]]),
    ];
    // The judge writes 0 into a spare blank, though 0 is listed.
    let written = [[0, 0, 1, X, X], [1, 0, 1, 1, X]];
    vec![
        case(&[], [2, 0, 0, X, X]),
        case(&[0], [2, 1, 1, X, X]),
        case(&[1, 0], [2, 3, 2, X, X]),
        case(&[3, 1, 0], [2, 4, 2, X, X]),
        Case::new(&full, 0, &all, UNSAFE, &made),
        Case::new(&draft, 0, &[2], 42, &[]),
        Case::new(&spare, 0, &[0], UNSAFE, &written),
    ]
}

/// The start cells of the closing search are the part's.
fn closing() -> Vec<Case> {
    let mut draft = Draft::empty(2);
    draft.kinds[..2].copy_from_slice(&[2, 2]);
    for name in [0, 1] {
        draft.put(name, name, 0);
        draft.put(name, name, 1);
    }
    draft.rules = vec![
        rule(2, &[], &[[DELETE, 0, 0, 1]]),
        rule(2, &[[1, 0, 1]], &[[ENTER, 0, 0, 1]]),
    ];
    let both = |name: u8| [[0, name, name, X, X], [1, name, name, X, X]];
    // The delete goes by what only a trusted name holds.
    let mut asked = draft.clone();
    asked.kinds[2] = 2;
    asked.put(2, 1, 1);
    asked.rules[0] = rule(3, &[[1, 2, 1]], &[[DELETE, 0, 0, 1]]);
    asked.cells[0] = 0;
    asked.cells[32 + 1] = 1;
    asked.rules[1] = rule(2, &[], &[[ENTER, 0, 0, 1]]);
    for (s, o) in [
        (0, 0),
        (0, 1),
        (0, 2),
        (1, 0),
        (1, 2),
        (2, 0),
        (2, 1),
        (2, 2),
    ] {
        asked.put(s, o, 0);
    }
    vec![
        Case::new(&draft, 0, &[], UNSAFE, &both(0)),
        Case::new(&draft, 0, &[0], UNSAFE, &both(1)),
        Case::new(&draft, 0, &[1], UNSAFE, &both(0)),
        Case::new(&draft, 0, &[0, 1], SAFE, &[]),
        Case::new(&asked, 0, &[2], SAFE, &[]),
        Case::new(&asked, 0, &[0], UNSAFE, &[[0, 1, 1, 2, X], [1, 1, 1, X, X]]),
    ]
}

/// Under safe too the steps are those of the part's rounds.
fn steps_of_the_part() -> Vec<Case> {
    let mut draft = Draft::empty(2);
    draft.kinds[..3].copy_from_slice(&[2, 2, 2]);
    draft.put(0, 1, 0);
    draft.put(1, 2, 0);
    draft.rules.push(rule(2, &[[0, 0, 1]], &[[ENTER, 0, 1, 0]]));
    let [first, second] = [[0, 0, 1, X, X], [0, 1, 2, X, X]];
    vec![
        Case::new(&draft, 1, &[], SAFE, &[first, second]),
        Case::new(&draft, 1, &[0], SAFE, &[second]),
        Case::new(&draft, 1, &[2], SAFE, &[first]),
        Case::new(&draft, 1, &[1], SAFE, &[]),
    ]
}

/// However small the part is: 31 names are too many, and the bound on the steps
/// is that of all subjects and names.
fn whole_counts(group: &mut Group, library: Library, random: &mut Random) {
    for names in 29..=32 {
        let mut draft = Draft::empty(1);
        draft.kinds[..names].fill(1);
        let all: Vec<u8> = (0..names as u8).collect();
        for list in [&all[..], &all[1..], &all[..1], &[]] {
            let code = if names > 30 { 23 } else { SAFE };
            let case = Case::new(&draft, 0, list, code, &[]);
            case.hold(group, library, random, needed(&case.file));
        }
    }
    let mut draft = Draft::empty(3);
    draft.kinds[..6].copy_from_slice(&[2, 1, 2, 1, 2, 1]);
    let file = draft.file();
    for list in [&[][..], &[0], &[1], &[4, 2], &[0, 1, 2, 3, 4, 5]] {
        let (whole, part) = (needed(&file), needed(&part(&file, list)));
        for length in [0, part - 1, part, whole - 1, whole, whole + 1] {
            let code = if length < whole { 24 } else { SAFE };
            let case = Case::new(&draft, 2, list, code, &[]);
            case.hold(group, library, random, length);
        }
    }
}
