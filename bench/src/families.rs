//! The benchmark's tables, by family. All are made from one seed.

use crate::found;
use crate::pruned;
use crate::slow;
use crate::table::{listing, Answer, Table};
use reference::file::{self, RIGHTS};
use reference::generate::{
    rule, Draft, CREATE_OBJECT, CREATE_SUBJECT, DELETE, DESTROY_OBJECT, DESTROY_SUBJECT, ENTER,
};
use reference::random::Random;
use reference::twelve::fullest;

pub struct Sample {
    pub family: &'static str,
    pub name: String,
    pub draft: Draft,
    pub right: u8,
    /// A table with the same listing, where this one takes a judge too long.
    pub same: Option<Draft>,
}

impl Sample {
    pub fn new(family: &'static str, name: &str, (draft, right): (Draft, u8)) -> Sample {
        Sample {
            family,
            name: format!("{family}-{name}"),
            draft,
            right,
            same: None,
        }
    }

    /// What the judge finds, and what the desk program must print.
    pub fn answer(&self) -> (Answer, String) {
        let judged = self.same.as_ref().unwrap_or(&self.draft);
        let contents = file::read(&judged.file()).expect("an accepted file");
        let table = Table::new(&contents);
        let answer = pruned::judge(&table, 1 << self.right);
        let wanted = listing(&table, &answer);
        (answer, wanted)
    }
}

/// Tables by chance: how many names and rules, and what the rules are like.
struct Shape {
    rights: u8,
    names: usize,
    subjects: usize,
    /// Percent of the rights that stand in cells.
    density: usize,
    rules: usize,
    blanks: (usize, usize),
    conditions: (usize, usize),
    /// How many blanks conditions and steps may name.
    named: usize,
}

const TYPICAL: Shape = Shape {
    rights: 5,
    names: 12,
    subjects: 8,
    density: 8,
    rules: 10,
    blanks: (2, 3),
    conditions: (1, 2),
    named: 3,
};

const LARGE: Shape = Shape {
    rights: 8,
    names: 30,
    subjects: 24,
    density: 3,
    rules: 32,
    blanks: (3, 4),
    conditions: (1, 4),
    named: 4,
};

const CARRIED: Shape = Shape {
    names: 20,
    subjects: 16,
    rules: 24,
    ..LARGE
};

const DENSE: Shape = Shape {
    density: 60,
    conditions: (2, 4),
    ..LARGE
};

const WIDE: Shape = Shape {
    blanks: (4, 4),
    conditions: (1, 2),
    named: 2,
    ..LARGE
};

/// Right 0 is asked for; it stands in some cells and few rules enter it.
fn by_chance(random: &mut Random, shape: &Shape) -> (Draft, u8) {
    let mut draft = Draft::empty(shape.rights);
    for name in 0..shape.names {
        draft.kinds[name] = if name < shape.subjects { 2 } else { 1 };
    }
    for s in 0..shape.subjects {
        for o in 0..shape.names {
            for right in 0..shape.rights {
                if random.percent(shape.density) {
                    draft.put(s, o, right);
                }
            }
        }
    }
    for number in 0..shape.rules {
        let blanks = random.between(shape.blanks.0, shape.blanks.1) as u8;
        let named = shape.named.min(blanks as usize);
        // Any of the blanks may be those that nothing names.
        let shift = random.below(blanks as usize);
        let blank = |random: &mut Random| ((random.below(named) + shift) % blanks as usize) as u8;
        let kind = match number % 8 {
            0..=4 => ENTER,
            5 => DELETE,
            6 => random.pick(&[CREATE_SUBJECT, CREATE_OBJECT]),
            _ => random.pick(&[DESTROY_SUBJECT, DESTROY_OBJECT]),
        };
        let (first, second) = (blank(random), blank(random));
        let asked = kind == DELETE && random.percent(50) || random.percent(3);
        let right = if asked {
            0
        } else {
            random.between(1, shape.rights as usize - 1) as u8
        };
        let step = match kind {
            ENTER | DELETE => [kind, right, first, second],
            _ => [kind, 0, first, 0],
        };
        let mut conditions = Vec::new();
        let (low, high) = shape.conditions;
        let count = random.between(low, high);
        while conditions.len() < count {
            let tested = random.below(shape.rights as usize) as u8;
            conditions.push([tested, blank(random), blank(random)]);
        }
        if matches!(kind, CREATE_SUBJECT | CREATE_OBJECT) {
            // A condition on the created blank never holds.
            conditions.retain(|test| !test[1..].contains(&first));
        }
        draft.rules.push(rule(blanks, &conditions, &[step]));
    }
    random.shuffle(&mut draft.rules);
    (draft, 0)
}

/// The first table by chance whose answer is wanted.
fn wanted(random: &mut Random, shape: &Shape, is_wanted: impl Fn(&Answer) -> bool) -> (Draft, u8) {
    wanted_with(random, shape, &[], is_wanted)
}

/// The same with rights that carry others.
fn wanted_with(
    random: &mut Random,
    shape: &Shape,
    carries: &[(u8, u8)],
    is_wanted: impl Fn(&Answer) -> bool,
) -> (Draft, u8) {
    for _ in 0..200 {
        let (mut draft, right) = by_chance(random, shape);
        for &(one, other) in carries {
            draft.carry(one, other);
        }
        let contents = file::read(&draft.file()).expect("accepted");
        if is_wanted(&pruned::judge(&Table::new(&contents), 1 << right)) {
            return (draft, right);
        }
    }
    panic!("no such table in 200");
}

/// Names 0 to `names` - 1, subjects all, through which tokens walk: the last right
/// links each name to the one below, the right before it marks the last name and the
/// first.
#[derive(Clone, Copy)]
pub struct Walk {
    pub rights: u8,
    pub names: usize,
}

impl Walk {
    fn link(self) -> u8 {
        self.rights - 1
    }

    fn end(self) -> u8 {
        self.rights - 2
    }

    fn draft(self) -> Draft {
        let mut draft = Draft::empty(self.rights);
        for name in 0..self.names {
            draft.kinds[name] = 2;
        }
        for name in 1..self.names {
            draft.put(name, name - 1, self.link());
        }
        draft.put(0, self.names - 1, self.end());
        draft
    }
}

/// Eight rights, and so many names.
pub fn eight(names: usize) -> Walk {
    Walk { rights: 8, names }
}

/// As many rights as there can be, and so many names.
pub fn twelve(names: usize) -> Walk {
    Walk {
        rights: RIGHTS,
        names,
    }
}

/// A token right walks down the diagonal, a round a step, since the place that
/// uses a step lies before it; then comes the next token.
fn diagonal(walk: Walk, tokens: u8) -> (Draft, u8) {
    let (link, end) = (walk.link(), walk.end());
    let mut draft = walk.draft();
    draft.put(walk.names - 1, walk.names - 1, 0);
    for token in (0..tokens).rev() {
        let hand_over = [[token, 0, 0], [end, 0, 1]];
        let entered = if token + 1 < tokens { token + 1 } else { link };
        draft
            .rules
            .push(rule(2, &hand_over, &[[ENTER, entered, 1, 1]]));
        let walk = [[token, 0, 0], [link, 0, 1]];
        draft.rules.push(rule(2, &walk, &[[ENTER, token, 1, 1]]));
    }
    (draft, link)
}

/// A token right walks through all cells, row by row and each row downwards,
/// a round a step: `tokens` x `names` x `names` rounds. At the end of it all
/// the linking right leaks, or nothing does.
pub fn grid(walk: Walk, tokens: u8, leaks: bool) -> (Draft, u8) {
    let (link, end) = (walk.link(), walk.end());
    let mut draft = walk.draft();
    draft.put(walk.names - 1, walk.names - 1, 0);
    for token in (0..tokens).rev() {
        if token + 1 < tokens || leaks {
            let entered = if token + 1 < tokens { token + 1 } else { link };
            let hand_over = [[token, 0, 0], [end, 0, 1]];
            draft
                .rules
                .push(rule(2, &hand_over, &[[ENTER, entered, 1, 1]]));
        }
        // From the end (a,c) of row a to the beginning (b,d) of row b.
        let next_row = [[token, 0, 2], [end, 2, 3], [link, 0, 1]];
        draft
            .rules
            .push(rule(4, &next_row, &[[ENTER, token, 1, 3]]));
        let walk = [[token, 0, 1], [link, 1, 2]];
        draft.rules.push(rule(3, &walk, &[[ENTER, token, 0, 2]]));
    }
    (draft, link)
}

/// The same with rules that are allowed at thousands of places in each round
/// once the first token has been everywhere, and are useful at none.
fn ballast(walk: Walk, tokens: u8) -> (Draft, u8) {
    let (mut draft, right) = grid(walk, tokens, true);
    let end = walk.end();
    let conditions = [[0, 0, 1], [0, 1, 2], [0, 2, 3], [end, 3, 0]];
    while draft.rules.len() < 24 {
        draft
            .rules
            .push(rule(4, &conditions, &[[ENTER, end, 3, 0]]));
    }
    (draft, right)
}

/// A token right walks through the columns, in all rows at once: a round is a
/// step in each row.
fn columns(walk: Walk, tokens: u8) -> (Draft, u8) {
    let (link, end) = (walk.link(), walk.end());
    let mut draft = walk.draft();
    for name in 0..walk.names {
        draft.put(name, walk.names - 1, 0);
    }
    for token in (0..tokens).rev() {
        let entered = if token + 1 < tokens { token + 1 } else { link };
        let hand_over = [[token, 0, 1], [end, 1, 2]];
        draft
            .rules
            .push(rule(3, &hand_over, &[[ENTER, entered, 0, 2]]));
        let walk = [[token, 0, 1], [link, 1, 2]];
        draft.rules.push(rule(3, &walk, &[[ENTER, token, 0, 2]]));
    }
    (draft, link)
}

/// The same with rules that cost much to search, and do nothing: most rounds
/// enter a right that they test, and a search goes through all names of three
/// blanks before it fails, since the cell of the last two holds right 0.
fn deep((mut draft, right): (Draft, u8), tokens: u8) -> (Draft, u8) {
    let mut token = 1;
    while draft.rules.len() < 32 {
        let other = token % (tokens - 1) + 1;
        let conditions = [[0, 0, 1], [0, 1, 2], [token, 2, 3], [other, 2, 3]];
        draft.rules.push(rule(4, &conditions, &[[ENTER, 0, 2, 3]]));
        token = other;
    }
    (draft, right)
}

/// Likewise with rules that enter what they test: while a token walks, each
/// name of the last two blanks has partners that hold it and partners that lack
/// it, and only a pair of names tells that both never meet.
fn vain((mut draft, right): (Draft, u8), tokens: u8) -> (Draft, u8) {
    let mut token = 1;
    while draft.rules.len() < 32 {
        let conditions = [[0, 0, 1], [0, 1, 2], [token, 2, 3]];
        draft
            .rules
            .push(rule(4, &conditions, &[[ENTER, token, 2, 3]]));
        token = token % (tokens - 1) + 1;
    }
    (draft, right)
}

/// The first of the last four rights is in all cells and can be deleted everywhere,
/// by the last of 16 rules; it can be entered again in the last cell only, or
/// nowhere.
fn closing(Walk { rights, names }: Walk, blanks: u8, leaks: bool) -> (Draft, u8) {
    let [goes, stays, nowhere, mark] = [4, 3, 2, 1].map(|from_last| rights - from_last);
    let mut draft = Draft::empty(rights);
    for s in 0..names {
        draft.kinds[s] = 2;
        for o in 0..names {
            draft.put(s, o, goes);
            draft.put(s, o, stays);
        }
    }
    if leaks {
        draft.put(names - 1, names - 1, mark);
    }
    let last = blanks - 1;
    for number in 0..16 {
        // Only the last delete has all that it asks for.
        let asked = if number == 15 { stays } else { nowhere };
        let conditions = [[stays, 0, last], [goes, last, 1], [asked, 1, 0]];
        draft
            .rules
            .push(rule(blanks, &conditions, &[[DELETE, goes, 0, 1]]));
        let conditions = [[stays, 1, last], [goes, last, last], [mark, 0, 1]];
        draft
            .rules
            .push(rule(blanks, &conditions, &[[ENTER, goes, 0, 1]]));
    }
    (draft, goes)
}

/// Four rights, and so many names.
fn four(names: usize) -> Walk {
    Walk { rights: 4, names }
}

/// The walk through all cells by links that are carried: right 3 stands in their
/// cells, and carries the linking right through rights 4 and 5.
fn carried_links(walk: Walk) -> (Draft, u8) {
    let link = walk.link();
    let (mut draft, right) = grid(walk, 3, true);
    for cell in &mut draft.cells {
        if *cell >> link & 1 == 1 {
            *cell = *cell & !(1 << link) | 1 << 3;
        }
    }
    for (one, other) in [(3, 4), (4, 5), (5, link)] {
        draft.carry(one, other);
    }
    (draft, right)
}

/// The walk by tokens that are carried: what is tested is right 0, 2 or 4, and
/// what is entered is the one above it, which carries it.
fn carried_tokens(walk: Walk, leaks: bool) -> (Draft, u8) {
    let (link, end) = (walk.link(), walk.end());
    let mut draft = walk.draft();
    draft.put(walk.names - 1, walk.names - 1, 0);
    for token in [4, 2, 0] {
        let handed = if token < 4 { token + 2 } else { link };
        if token < 4 || leaks {
            let hand_over = [[token, 0, 0], [end, 0, 1]];
            draft
                .rules
                .push(rule(2, &hand_over, &[[ENTER, handed, 1, 1]]));
        }
        let next_row = [[token, 0, 2], [end, 2, 3], [link, 0, 1]];
        draft
            .rules
            .push(rule(4, &next_row, &[[ENTER, token + 1, 1, 3]]));
        let walk = [[token, 0, 1], [link, 1, 2]];
        draft
            .rules
            .push(rule(3, &walk, &[[ENTER, token + 1, 0, 2]]));
        draft.carry(token + 1, token);
    }
    (draft, link)
}

/// The closing search with what goes carried by what stays.
fn carried_closing(walk: Walk, blanks: u8, leaks: bool) -> (Draft, u8) {
    let (mut draft, goes) = closing(walk, blanks, leaks);
    draft.carry(goes + 1, goes);
    draft.carry(goes + 3, goes + 1);
    (draft, goes)
}

/// Tables with rights that carry others.
fn carried(random: &mut Random) -> Vec<Sample> {
    let by_rounds = |answer: &Answer| answer.is_unsafe && answer.steps.len() >= 5;
    let safe = |answer: &Answer| !answer.is_unsafe && answer.steps.len() >= 10;
    let rounds = |answer: &Answer| !answer.is_unsafe && answer.rounds >= 4;
    // One right over two others, of which one carries a fourth.
    let few = [(4, 3), (4, 2), (3, 1)];
    let chain: Vec<(u8, u8)> = (1..7).map(|right| (right, right + 1)).collect();
    let cycle: Vec<(u8, u8)> = (1..8).map(|right| (right, right % 7 + 1)).collect();
    let mut table = |shape, carries, is_wanted: &dyn Fn(&Answer) -> bool| {
        wanted_with(random, shape, carries, is_wanted)
    };
    vec![
        Sample::new("carries", "typical", table(&TYPICAL, &few, &safe)),
        Sample::new("carries", "unsafe", table(&TYPICAL, &few, &by_rounds)),
        Sample::new("carries", "large", table(&LARGE, &few, &rounds)),
        Sample::new("carries", "chain", table(&CARRIED, &chain, &rounds)),
        Sample::new("carries", "cycle", table(&CARRIED, &cycle, &safe)),
        Sample::new("carries", "links", carried_links(eight(30))),
        Sample::new("carries", "tokens", carried_tokens(eight(30), true)),
        Sample::new("carries", "safe", carried_tokens(eight(30), false)),
        Sample::new("carries", "closing", carried_closing(four(30), 4, true)),
    ]
}

/// Tables of twelve rights, the like of those of eight; the last one has the most
/// steps that there can be.
fn of_twelve(random: &mut Random) -> Vec<Sample> {
    let by_rounds = |answer: &Answer| answer.is_unsafe && answer.steps.len() >= 5;
    let safe = |answer: &Answer| !answer.is_unsafe && answer.steps.len() >= 10;
    let rounds = |answer: &Answer| !answer.is_unsafe && answer.rounds >= 4;
    let late = |answer: &Answer| answer.is_unsafe && answer.steps.len() >= 500;
    let typical = Shape {
        rights: RIGHTS,
        ..TYPICAL
    };
    let large = Shape {
        rights: RIGHTS,
        ..LARGE
    };
    // A chain of all rights but the one asked for, from byte to byte of a set and back.
    let order = [1, 9, 2, 10, 3, 11, 4, 8, 5, 7, 6];
    let chain: Vec<(u8, u8)> = order.windows(2).map(|link| (link[0], link[1])).collect();
    let carried = Shape {
        rights: RIGHTS,
        ..CARRIED
    };
    let mut table = |shape, carries, is_wanted: &dyn Fn(&Answer) -> bool| {
        wanted_with(random, shape, carries, is_wanted)
    };
    vec![
        Sample::new("twelve", "typical", table(&typical, &[], &safe)),
        Sample::new("twelve", "unsafe", table(&typical, &[], &by_rounds)),
        Sample::new("twelve", "large", table(&large, &[], &safe)),
        Sample::new("twelve", "rounds", table(&large, &[], &rounds)),
        Sample::new("twelve", "late", table(&large, &[], &late)),
        Sample::new("twelve", "carries", table(&carried, &chain, &safe)),
        Sample::new("twelve", "2700", grid(twelve(30), 3, true)),
        Sample::new("twelve", "9000", grid(twelve(30), 10, true)),
        Sample::new("twelve", "9000-safe", grid(twelve(30), 10, false)),
        Sample::new("twelve", "links", carried_links(twelve(30))),
        Sample {
            same: Some(grid(twelve(30), 6, true).0),
            ..Sample::new("twelve", "deep", deep(grid(twelve(30), 6, true), 6))
        },
        Sample::new("twelve", "closing", closing(twelve(30), 4, true)),
        Sample::new("twelve", "most", fullest()),
    ]
}

/// Chains with rules besides that do nothing.
fn worst() -> [Sample; 2] {
    [
        Sample {
            same: Some(grid(eight(30), 6, true).0),
            ..Sample::new("worst", "deep", deep(grid(eight(30), 6, true), 6))
        },
        // So many steps a round that the next one searches all places.
        Sample {
            same: Some(columns(eight(30), 6).0),
            ..Sample::new("worst", "broad", vain(columns(eight(30), 6), 6))
        },
    ]
}

/// The files that are known to be slow.
pub fn known() -> Vec<Sample> {
    let mut samples = Vec::from(worst());
    samples.extend(slow::family());
    samples.extend(found::family());
    samples
}

pub fn all(seed: u64) -> Vec<Sample> {
    let mut random = Random::new(seed);
    let random = &mut random;
    let by_rounds = |answer: &Answer| answer.is_unsafe && answer.steps.len() >= 5;
    let safe = |answer: &Answer| !answer.is_unsafe && answer.steps.len() >= 10;
    let mut samples = vec![
        Sample::new("typical", "safe", wanted(random, &TYPICAL, safe)),
        Sample::new("typical", "unsafe", wanted(random, &TYPICAL, by_rounds)),
    ];
    let rounds = |answer: &Answer| !answer.is_unsafe && answer.rounds >= 4;
    let late = |answer: &Answer| answer.is_unsafe && answer.steps.len() >= 500;
    for (family, shape) in [("large", &LARGE), ("dense", &DENSE), ("wide", &WIDE)] {
        samples.push(Sample::new(family, "safe", wanted(random, shape, safe)));
        samples.push(Sample::new(family, "rounds", wanted(random, shape, rounds)));
        samples.push(Sample::new(family, "unsafe", wanted(random, shape, late)));
    }
    samples.extend([
        Sample::new("chain", "145", diagonal(eight(29), 5)),
        Sample::new("chain", "400", grid(eight(20), 1, true)),
        Sample::new("chain", "900", grid(eight(30), 1, false)),
        Sample::new("chain", "2700", grid(eight(30), 3, true)),
        Sample::new("chain", "5400", grid(eight(30), 6, true)),
        Sample::new("chain", "5400-safe", grid(eight(30), 6, false)),
        Sample::new("chain", "ballast", ballast(eight(30), 6)),
    ]);
    samples.extend(worst());
    samples.extend([
        Sample::new("closing", "3-blanks", closing(four(30), 3, true)),
        Sample::new("closing", "4-blanks", closing(four(30), 4, true)),
        Sample::new("closing", "safe", closing(four(30), 4, false)),
    ]);
    samples.extend(carried(random));
    samples.extend(of_twelve(random));
    samples.extend(slow::family());
    samples.extend(found::family());
    samples
}
