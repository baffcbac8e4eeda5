//! Files made by hand to be slow. But for `steps` and `closing` a right walks through
//! all cells, a step a round, and the rules behind the walk are equal, are searched
//! in most rounds, and do nothing.

use crate::families::{eight, grid, twelve, Sample};
use reference::generate::{rule, Draft, CREATE_OBJECT, DELETE, ENTER};

const NAMES: usize = 30;
const RULES: usize = 32;

/// The right stands in the cells of the names that the relation has.
pub fn relate(draft: &mut Draft, right: u8, relation: impl Fn(usize, usize) -> bool) {
    for s in 0..NAMES {
        for o in 0..NAMES {
            if relation(s, o) {
                draft.put(s, o, right);
            }
        }
    }
}

fn odd(s: usize, o: usize) -> bool {
    (s + o) % 2 == 1
}

fn even(s: usize, o: usize) -> bool {
    !odd(s, o)
}

fn full(_: usize, _: usize) -> bool {
    true
}

/// The table, and the same with the rule behind its own as often as there is room.
fn padded((draft, right): (Draft, u8), vain: Vec<u8>) -> ((Draft, u8), Draft) {
    let mut long = draft.clone();
    long.rules.resize(RULES, vain);
    ((long, right), draft)
}

/// All names are subjects.
fn subjects(rights: u8) -> Draft {
    let mut draft = Draft::empty(rights);
    draft.kinds[..NAMES].fill(2);
    draft
}

/// Round 1 does one step, round 2 hundreds by each of two rules.
fn steps() -> (Draft, u8) {
    let mut draft = subjects(8);
    relate(&mut draft, 3, full);
    draft.put(NAMES - 1, NAMES - 1, 4);
    for entered in [0, 1] {
        let conditions = [[3, 0, 1], [3, 1, 2], [2, 3, 3]];
        let step = [ENTER, entered, 0, 2];
        draft.rules.push(rule(4, &conditions, &[step]));
    }
    draft.rules.push(rule(2, &[[4, 0, 1]], &[[ENTER, 2, 0, 1]]));
    (draft, 7)
}

/// Every cell can get the right again; 31 rules that delete it search in vain,
/// through the names of blank 0, since those left to blanks 0 and 1 never have an
/// odd sum.
fn closing() -> (Draft, u8) {
    let mut draft = subjects(8);
    relate(&mut draft, 0, full);
    relate(&mut draft, 1, odd);
    relate(&mut draft, 2, |s, _| s % 2 == 0);
    relate(&mut draft, 3, |s, _| s % 2 == 0);
    relate(&mut draft, 4, full);
    draft.rules.push(rule(2, &[[4, 0, 1]], &[[ENTER, 0, 0, 1]]));
    let conditions = [[1, 0, 1], [2, 0, 2], [3, 1, 3]];
    let vain = rule(4, &conditions, &[[DELETE, 0, 2, 3]]);
    draft.rules.resize(RULES, vain);
    (draft, 0)
}

/// Of two new columns each leaves blanks 2 and 3 names of one parity, and an odd sum
/// is wanted.
fn columns() -> ((Draft, u8), Draft) {
    let (mut draft, right) = grid(eight(NAMES), 1, false);
    relate(&mut draft, 3, even);
    relate(&mut draft, 4, odd);
    let conditions = [[0, 0, 1], [3, 1, 2], [3, 1, 3], [4, 2, 3]];
    padded((draft, right), rule(4, &conditions, &[[ENTER, 5, 2, 3]]))
}

/// Rules that create, with a condition on the name to be created.
fn creates() -> ((Draft, u8), Draft) {
    let (mut draft, right) = grid(eight(NAMES), 1, false);
    relate(&mut draft, 3, full);
    let conditions = [[0, 0, 1], [3, 1, 2], [3, 2, 3]];
    let vain = rule(4, &conditions, &[[CREATE_OBJECT, 0, 3, 0]]);
    padded((draft, right), vain)
}

/// Right 1 comes into the cell that right 0 walked to and into the one across. It
/// stands on the diagonal, so that a condition on one blank holds for the names of
/// both cells.
fn mirrored() -> (Draft, u8) {
    let (mut draft, right) = grid(eight(NAMES), 1, false);
    relate(&mut draft, 1, |s, o| s == o);
    for [s, o] in [[0, 1], [1, 0]] {
        draft.rules.push(rule(2, &[[0, 0, 1]], &[[ENTER, 1, s, o]]));
    }
    (draft, right)
}

/// What goes with blank 1 is even, what goes with blank 2 odd.
fn pairs() -> ((Draft, u8), Draft) {
    let (mut draft, right) = mirrored();
    relate(&mut draft, 4, |_, o| o % 2 == 0);
    relate(&mut draft, 5, |_, o| o % 2 == 1);
    let conditions = [[1, 0, 0], [4, 1, 3], [5, 2, 3]];
    padded((draft, right), rule(4, &conditions, &[[ENTER, 2, 1, 2]]))
}

/// Two rights that no cell has together are wanted in one.
fn together() -> ((Draft, u8), Draft) {
    let (mut draft, right) = mirrored();
    relate(&mut draft, 3, full);
    relate(&mut draft, 4, odd);
    relate(&mut draft, 5, even);
    let conditions = [[1, 0, 0], [4, 1, 2], [5, 1, 2], [3, 2, 3]];
    padded((draft, right), rule(4, &conditions, &[[ENTER, 2, 1, 3]]))
}

/// Three names each two of which have an odd sum.
fn parities() -> ((Draft, u8), Draft) {
    let (mut draft, right) = mirrored();
    relate(&mut draft, 4, odd);
    let conditions = [[1, 0, 0], [4, 1, 2], [4, 2, 3], [4, 1, 3]];
    padded((draft, right), rule(4, &conditions, &[[ENTER, 2, 1, 2]]))
}

/// The same for each name of blank 0, which a condition ties to blank 1, and in
/// three times as many rounds: what walks, and what comes into the cell across,
/// carries the right that blank 0 is tested for.
fn tied() -> ((Draft, u8), Draft) {
    let (mut draft, right) = grid(twelve(NAMES), 3, false);
    let [tested, tie, lacked, asked] = [6, 7, 8, 9];
    relate(&mut draft, tested, |s, o| s == o);
    relate(&mut draft, tie, full);
    relate(&mut draft, lacked, even);
    relate(&mut draft, asked, odd);
    cross(&mut draft, 3, tested);
    let conditions = [[tested, 0, 0], [tie, 0, 1], [asked, 1, 2], [asked, 2, 3]];
    let vain = rule(4, &conditions, &[[ENTER, lacked, 1, 3]]);
    padded((draft, right), vain)
}

/// Likewise with a right that stands where both names are 0 or neither is: what is
/// related to the name of blank 1 is related, but each name has one that it is not
/// related to.
fn classes() -> ((Draft, u8), Draft) {
    let (mut draft, right) = grid(twelve(NAMES), 4, false);
    let [tested, same] = [8, 9];
    relate(&mut draft, tested, full);
    relate(&mut draft, same, |s, o| (s == 0) == (o == 0));
    cross(&mut draft, 4, tested);
    let conditions = [[tested, 0, 0], [tested, 0, 1], [same, 1, 2], [same, 1, 3]];
    padded((draft, right), rule(4, &conditions, &[[ENTER, same, 2, 3]]))
}

/// For each token a right that comes into the cell across; both carry the other one.
fn cross(draft: &mut Draft, tokens: u8, carried: u8) {
    for token in 0..tokens {
        let across = rule(2, &[[token, 0, 1]], &[[ENTER, token + tokens, 1, 0]]);
        draft.rules.push(across);
        draft.carry(token, carried);
        draft.carry(token + tokens, carried);
    }
}

/// The family. What the equal rules do is nothing: the listing is that of the table
/// without them.
pub fn family() -> Vec<Sample> {
    let made = [
        ("columns", columns()),
        ("creates", creates()),
        ("pairs", pairs()),
        ("together", together()),
        ("parities", parities()),
        ("tied", tied()),
        ("classes", classes()),
    ];
    let mut samples = vec![
        Sample::new("slow", "steps", steps()),
        Sample::new("slow", "closing", closing()),
    ];
    samples.extend(made.map(|(name, (table, same))| Sample {
        same: Some(same),
        ..Sample::new("slow", name, table)
    }));
    samples
}
