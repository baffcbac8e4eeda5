//! Tables after the files made to be slow (docs/PERFORMANCE.md): with fewer names
//! and rules, so that the reference judge comes to an end, with any numbers and in
//! any order, and half of them changed by chance.

use crate::file::NAMES;
use crate::generate::{renumbered, rule, some_names, Draft, CREATE_OBJECT, DELETE, ENTER};
use crate::random::Random;

/// A table in the making. But for `steps` and `closing` a token right walks through
/// cells, a step a round.
pub struct Slow {
    pub draft: Draft,
    /// The right to ask for.
    pub right: u8,
    /// The rule that is searched in most rounds and, unless something is changed,
    /// does nothing (in `steps`: does much).
    vain: Vec<u8>,
    /// A right that no condition tests.
    idle: u8,
}

/// The families' names, and how their tables are made.
pub const FAMILIES: [(&str, fn(Walk) -> Slow); 9] = [
    ("steps", steps),
    ("closing", closing),
    ("columns", columns),
    ("creates", creates),
    ("pairs", pairs),
    ("together", together),
    ("parities", parities),
    ("tied", tied),
    ("classes", classes),
];

/// A table, the right to ask for and the number of its family.
pub fn slow(random: &mut Random) -> (Draft, u8, usize) {
    let walk = Walk::any(random);
    let family = random.below(FAMILIES.len());
    let mut table = FAMILIES[family].1(walk);
    if random.percent(50) {
        table.right = table.entered().unwrap_or(table.right);
    }
    if random.percent(45) {
        table.turn(random, walk);
    }
    if random.percent(50) {
        for _ in 0..random.between(1, 4) {
            table.change(random, walk);
        }
    }
    let copies = match walk.names {
        0..=8 => random.pick(&[1, 1, 2, 4, 8, 32]),
        9..=14 => random.between(1, 3),
        _ => 1,
    };
    let Slow {
        mut draft,
        right,
        vain,
        ..
    } = table;
    let rules = 32.min(draft.rules.len() + copies);
    draft.rules.resize(rules, vain);
    let (draft, right) = in_any_order(random, draft, right);
    (draft, right, family)
}

/// The same table with other numbers for names and rights, and another order of
/// rules and of blanks.
fn in_any_order(random: &mut Random, mut draft: Draft, right: u8) -> (Draft, u8) {
    if random.percent(50) {
        random.shuffle(&mut draft.rules);
    }
    for section in &mut draft.rules {
        if random.percent(50) {
            shuffle_blanks(random, section);
        }
    }
    draft.spread_spares(random);
    let draft = with_other_names(random, &draft);
    let (draft, numbers) = renumbered(random, &draft);
    (draft, numbers[usize::from(right)])
}

/// How a token walks: through so many names, all subjects, downwards, and through
/// all cells or those of row 0.
#[derive(Clone, Copy)]
pub struct Walk {
    names: usize,
    whole: bool,
    /// What blank 0 is tested for comes with the walk alone, to the diagonal late.
    late: bool,
}

impl Walk {
    /// Few rounds where many names make a round long.
    fn any(random: &mut Random) -> Walk {
        let names = match random.below(20) {
            0..=9 => random.between(3, 8),
            10..=15 => random.between(9, 14),
            16..=18 => random.between(15, 30),
            _ => 2,
        };
        Walk {
            names,
            whole: names <= 10 && random.percent(75),
            late: random.percent(40),
        }
    }

    /// The walk alone. The last right links each name to the one below, the right
    /// before it marks the last name and the first.
    fn draft(self, rights: u8, tokens: u8) -> Draft {
        let mut draft = Draft::empty(rights);
        let (link, end, last) = (rights - 1, rights - 2, self.names - 1);
        draft.kinds[..self.names].fill(2);
        for name in 0..last {
            draft.put(name + 1, name, link);
        }
        draft.put(0, last, end);
        let (first_row, row) = if self.whole { (last, 1) } else { (0, 0) };
        draft.put(first_row, last - usize::from(self.late), 0);
        for token in (0..tokens).rev() {
            if token + 1 < tokens {
                let hand_over = [[token, 0, 0], [end, 0, 1]];
                let step = [ENTER, token + 1, row, 1];
                draft.rules.push(rule(2, &hand_over, &[step]));
            }
            if self.whole {
                let next_row = [[token, 0, 2], [end, 2, 3], [link, 0, 1]];
                let step = [ENTER, token, 1, 3];
                draft.rules.push(rule(4, &next_row, &[step]));
            }
            let next = [[token, 0, 1], [link, 1, 2]];
            draft.rules.push(rule(3, &next, &[[ENTER, token, 0, 2]]));
        }
        draft
    }

    /// Right 1 comes into the cell that right 0 walked to and into the one across,
    /// and stands on the diagonal.
    fn mirrored(self) -> Draft {
        let mut draft = self.draft(8, 1);
        self.relate(&mut draft, 1, |s, o| s == o && !self.late);
        for [s, o] in [[0, 1], [1, 0]] {
            draft.rules.push(rule(2, &[[0, 0, 1]], &[[ENTER, 1, s, o]]));
        }
        draft
    }

    /// Three tokens, and for each a right that comes into the cell across; both
    /// carry another one.
    fn crossed(self, carried: u8) -> Draft {
        let mut draft = self.draft(12, 3);
        for token in 0..3 {
            let across = [ENTER, token + 3, 1, 0];
            draft.rules.push(rule(2, &[[token, 0, 1]], &[across]));
            draft.carry(token, carried);
            draft.carry(token + 3, carried);
        }
        draft
    }

    /// The right stands in the cells of the names that the relation has.
    fn relate(self, draft: &mut Draft, right: u8, relation: impl Fn(usize, usize) -> bool) {
        for s in 0..self.names {
            for o in 0..self.names {
                if relation(s, o) {
                    draft.put(s, o, right);
                }
            }
        }
    }
}

fn odd(s: usize, o: usize) -> bool {
    (s + o) % 2 == 1
}

fn even(s: usize, o: usize) -> bool {
    !odd(s, o)
}

fn full(_: usize, _: usize) -> bool {
    true
}

/// The table whose linking right is asked for, which no rule enters.
fn asked(draft: Draft, idle: u8, conditions: &[[u8; 3]], step: [u8; 4]) -> Slow {
    Slow {
        right: draft.rights - 1,
        draft,
        vain: rule(4, conditions, &[step]),
        idle,
    }
}

/// Round 1 does one step, round 2 many by each of two rules.
fn steps(walk: Walk) -> Slow {
    let mut draft = Draft::empty(8);
    draft.kinds[..walk.names].fill(2);
    walk.relate(&mut draft, 3, full);
    draft.put(walk.names - 1, walk.names - 1, 4);
    let conditions = [[3, 0, 1], [3, 1, 2], [2, 3, 3]];
    draft.rules.push(rule(4, &conditions, &[[ENTER, 1, 0, 2]]));
    draft.rules.push(rule(2, &[[4, 0, 1]], &[[ENTER, 2, 0, 1]]));
    asked(draft, 5, &conditions, [ENTER, 0, 0, 2])
}

/// Every cell can get the right again. The rule that deletes it is searched in vain:
/// names left to blanks 0 and 1 never have an odd sum.
fn closing(walk: Walk) -> Slow {
    let mut draft = Draft::empty(8);
    draft.kinds[..walk.names].fill(2);
    walk.relate(&mut draft, 0, full);
    walk.relate(&mut draft, 1, odd);
    walk.relate(&mut draft, 2, |s, _| s % 2 == 0);
    walk.relate(&mut draft, 3, |s, _| s % 2 == 0);
    walk.relate(&mut draft, 4, full);
    draft.rules.push(rule(2, &[[4, 0, 1]], &[[ENTER, 0, 0, 1]]));
    let conditions = [[1, 0, 1], [2, 0, 2], [3, 1, 3]];
    Slow {
        right: 0,
        ..asked(draft, 5, &conditions, [DELETE, 0, 2, 3])
    }
}

/// Each new column leaves blanks 2 and 3 names of one parity, and an odd sum is
/// wanted.
fn columns(walk: Walk) -> Slow {
    let mut draft = walk.draft(8, 1);
    walk.relate(&mut draft, 3, even);
    walk.relate(&mut draft, 4, odd);
    let conditions = [[0, 0, 1], [3, 1, 2], [3, 1, 3], [4, 2, 3]];
    asked(draft, 5, &conditions, [ENTER, 5, 2, 3])
}

/// The rule creates, with a condition on the name to be created. The right asked for
/// stands in all cells; a created name's would lack it.
fn creates(walk: Walk) -> Slow {
    let mut draft = walk.draft(8, 1);
    walk.relate(&mut draft, 3, full);
    walk.relate(&mut draft, 5, full);
    draft.rules.push(rule(2, &[[0, 0, 0]], &[[ENTER, 5, 0, 1]]));
    let conditions = [[0, 0, 1], [3, 1, 2], [3, 2, 3]];
    Slow {
        right: 5,
        ..asked(draft, 5, &conditions, [CREATE_OBJECT, 0, 3, 0])
    }
}

/// What goes with blank 1 is even, what goes with blank 2 odd.
fn pairs(walk: Walk) -> Slow {
    let mut draft = walk.mirrored();
    walk.relate(&mut draft, 4, |_, o| o % 2 == 0);
    walk.relate(&mut draft, 5, |_, o| o % 2 == 1);
    let conditions = [[1, 0, 0], [4, 1, 3], [5, 2, 3]];
    asked(draft, 2, &conditions, [ENTER, 2, 1, 2])
}

/// Two rights that no cell has together are wanted in one.
fn together(walk: Walk) -> Slow {
    let mut draft = walk.mirrored();
    walk.relate(&mut draft, 3, full);
    walk.relate(&mut draft, 4, odd);
    walk.relate(&mut draft, 5, even);
    let conditions = [[1, 0, 0], [4, 1, 2], [5, 1, 2], [3, 2, 3]];
    asked(draft, 2, &conditions, [ENTER, 2, 1, 3])
}

/// Three names each two of which have an odd sum.
fn parities(walk: Walk) -> Slow {
    let mut draft = walk.mirrored();
    walk.relate(&mut draft, 4, odd);
    let conditions = [[1, 0, 0], [4, 1, 2], [4, 2, 3], [4, 1, 3]];
    asked(draft, 2, &conditions, [ENTER, 2, 1, 2])
}

/// The same for each name of blank 0, which a condition ties to blank 1; what walks
/// carries the right that blank 0 is tested for.
fn tied(walk: Walk) -> Slow {
    let [tested, tie, lacked, wanted] = [6, 7, 8, 9];
    let mut draft = walk.crossed(tested);
    walk.relate(&mut draft, tested, |s, o| s == o && !walk.late);
    walk.relate(&mut draft, tie, full);
    walk.relate(&mut draft, lacked, even);
    walk.relate(&mut draft, wanted, odd);
    let conditions = [[tested, 0, 0], [tie, 0, 1], [wanted, 1, 2], [wanted, 2, 3]];
    asked(draft, lacked, &conditions, [ENTER, lacked, 1, 3])
}

/// Likewise with a right that stands where both names are 0 or neither is.
fn classes(walk: Walk) -> Slow {
    let [tested, same, idle] = [6, 7, 8];
    let mut draft = walk.crossed(tested);
    walk.relate(&mut draft, tested, |_, _| !walk.late);
    walk.relate(&mut draft, same, |s, o| (s == 0) == (o == 0));
    let conditions = [[tested, 0, 0], [tested, 0, 1], [same, 1, 2], [same, 1, 3]];
    asked(draft, idle, &conditions, [ENTER, same, 2, 3])
}

impl Slow {
    fn step(&mut self) -> &mut [u8] {
        let at = self.vain.len() - 4;
        &mut self.vain[at..]
    }

    /// The right that the rule enters.
    fn entered(&mut self) -> Option<u8> {
        match *self.step() {
            [ENTER, right, ..] => Some(right),
            _ => None,
        }
    }

    /// Makes the rule delete what it entered, for the closing search: a right that
    /// stands in all cells and can come in again.
    fn turn(&mut self, random: &mut Random, walk: Walk) {
        if self.entered().is_none() {
            return;
        }
        self.right = self.idle;
        let idle = self.idle;
        self.step()[..2].copy_from_slice(&[DELETE, idle]);
        walk.relate(&mut self.draft, idle, full);
        let walked = [[0, 0, 1]];
        let conditions = if random.percent(50) { &walked[..] } else { &[] };
        let again = rule(2, conditions, &[[ENTER, idle, 0, 1]]);
        self.draft.rules.push(again);
    }

    /// A small change, mostly of what the rule asks for.
    fn change(&mut self, random: &mut Random, walk: Walk) {
        let tests = usize::from(self.vain[1]);
        let rights = usize::from(self.draft.rights);
        match random.below(12) {
            // A cell more or less, of a right that the rule tests, or of any.
            0..=5 if tests > 0 => {
                let tested = self.vain[3 + 3 * random.below(tests)];
                self.flip(random, tested);
            }
            6 => {
                let right = random.below(rights) as u8;
                self.flip(random, right);
            }
            // A condition exchanged for another.
            7 | 8 if tests > 0 => {
                let at = 3 + 3 * random.below(tests);
                self.vain[at + random.between(1, 2)] = random.below(4) as u8;
                if random.percent(30) {
                    self.vain[at] = random.below(rights) as u8;
                }
            }
            // A condition less.
            9 if tests > 1 => {
                let at = 3 + 3 * random.below(tests);
                self.vain.drain(at..at + 3);
                self.vain[1] -= 1;
            }
            10 => self.join(random, walk),
            _ => self.draft.spread_carries(random, 50),
        }
    }

    fn flip(&mut self, random: &mut Random, right: u8) {
        let names = self.draft.names();
        let (s, o) = (random.pick(&names), random.pick(&names));
        self.draft.cells[NAMES * s + o] ^= 1 << right;
    }

    /// The rule of another family beside this one's.
    fn join(&mut self, random: &mut Random, walk: Walk) {
        let other = random.pick(&FAMILIES).1(walk);
        let more = other.draft.rights.max(self.draft.rights);
        self.draft.rights = more;
        self.draft.carries.resize(usize::from(more), 0);
        self.draft.rules.push(other.vain);
    }
}

/// Other blanks for those that the rule's conditions and its one step name.
fn shuffle_blanks(random: &mut Random, section: &mut [u8]) {
    let mut blanks: Vec<u8> = (0..section[0]).collect();
    random.shuffle(&mut blanks);
    let tests = 3 * usize::from(section[1]);
    let (conditions, step) = section[3..].split_at_mut(tests);
    let tested = conditions.chunks_mut(3).flat_map(|test| &mut test[1..]);
    let used = match step[0] {
        ENTER | DELETE => &mut step[2..],
        _ => &mut step[2..3],
    };
    for blank in tested.chain(used) {
        *blank = blanks[usize::from(*blank)];
    }
}

/// The same table on any names, mostly in the same order, which a walk takes most
/// rounds in; some names beside them, as long as 30 are not passed.
fn with_other_names(random: &mut Random, draft: &Draft) -> Draft {
    let old = draft.names();
    let beside = random.pick(&[0, 0, 0, 1, 2]).min(30 - old.len());
    let mut names = some_names(random, old.len() + beside);
    let more = names.split_off(old.len());
    if random.percent(70) {
        names.sort();
    }
    let mut other = draft.clone();
    other.kinds.fill(0);
    other.cells.fill(0);
    for (&s, &new_s) in old.iter().zip(&names) {
        other.kinds[new_s] = draft.kinds[s];
        for (&o, &new_o) in old.iter().zip(&names) {
            other.cells[NAMES * new_s + new_o] = draft.cells[NAMES * s + o];
        }
    }
    for name in more {
        other.kinds[name] = random.between(1, 2) as u8;
    }
    other
}
