//! Candidates for slow files: tables by chance, and tables changed by chance.

use crate::families::{grid, Walk};
use crate::slow::relate;
use reference::file::{NAMES, RIGHTS};
use reference::generate::{
    rule, Draft, CREATE_OBJECT, CREATE_SUBJECT, DELETE, DESTROY_OBJECT, DESTROY_SUBJECT, ENTER,
};
use reference::random::Random;

const RULES: usize = 32;
const CONDITIONS: usize = 4;

/// A table and the right to ask for.
pub type Asked = (Draft, u8);

/// A rule of one step.
struct Parts {
    blanks: u8,
    conditions: Vec<[u8; 3]>,
    step: [u8; 4],
}

impl Parts {
    fn of(section: &[u8]) -> Parts {
        let (conditions, step) = section[3..].split_at(3 * section[1] as usize);
        Parts {
            blanks: section[0],
            conditions: conditions.chunks(3).map(|c| [c[0], c[1], c[2]]).collect(),
            step: [step[0], step[1], step[2], step[3]],
        }
    }

    fn section(&self) -> Vec<u8> {
        rule(self.blanks, &self.conditions, &[self.step])
    }
}

fn right_of(random: &mut Random, draft: &Draft) -> u8 {
    random.below(draft.rights as usize) as u8
}

fn condition(random: &mut Random, rights: u8, blanks: u8) -> [u8; 3] {
    let [s, o] = [(); 2].map(|_| random.below(blanks as usize) as u8);
    [random.below(rights as usize) as u8, s, o]
}

fn step(random: &mut Random, rights: u8, blanks: u8) -> [u8; 4] {
    let [_, s, o] = condition(random, rights, blanks);
    let kind = match random.below(12) {
        0..=7 => ENTER,
        8 | 9 => DELETE,
        10 => random.pick(&[CREATE_SUBJECT, CREATE_OBJECT]),
        _ => random.pick(&[DESTROY_SUBJECT, DESTROY_OBJECT]),
    };
    match kind {
        ENTER | DELETE => [kind, random.below(rights as usize) as u8, s, o],
        _ => [kind, 0, s, 0],
    }
}

fn any_rule(random: &mut Random, rights: u8) -> Parts {
    let blanks = random.pick(&[2, 3, 4, 4, 4, 4]);
    let count = random.pick(&[1, 2, 3, 4, 4]);
    Parts {
        blanks,
        conditions: (0..count)
            .map(|_| condition(random, rights, blanks))
            .collect(),
        step: step(random, rights, blanks),
    }
}

/// The right into the cells of a relation by chance, or out of all.
fn any_relation(random: &mut Random, draft: &mut Draft, right: u8) {
    for cell in &mut draft.cells {
        *cell &= !(1 << right);
    }
    let (modulus, rest) = (random.between(2, 5), random.below(5));
    let density = random.pick(&[1, 5, 20, 50, 80, 97]);
    let shape = random.below(10);
    let mut chosen = [false; NAMES * NAMES];
    chosen.fill_with(|| random.percent(density));
    relate(draft, right, |s, o| match shape {
        0 => false,
        1 => true,
        2 => s == o,
        3 => (s + o) % modulus == rest % modulus,
        4 => (s + o) % modulus != rest % modulus,
        5 => s % modulus == rest % modulus,
        6 => o % modulus == rest % modulus,
        7 => s < o,
        8 => s / modulus == o / modulus,
        _ => chosen[NAMES * s + o],
    });
    keep_to_kinds(draft);
}

/// Cells are empty where there is no subject or no name.
fn keep_to_kinds(draft: &mut Draft) {
    for s in 0..NAMES {
        for o in 0..NAMES {
            if draft.kinds[s] != 2 || draft.kinds[o] == 0 {
                draft.cells[NAMES * s + o] = 0;
            }
        }
    }
}

/// A table by chance: half of them have a walk through all cells, and so many rounds.
pub fn by_chance(random: &mut Random) -> Asked {
    let walks = random.percent(50);
    let rights = random.between(4, usize::from(RIGHTS)) as u8;
    let mut draft = Draft::empty(rights);
    if walks {
        let tokens = random.between(1, usize::from(rights - 3).min(8)) as u8;
        draft = grid(Walk { rights, names: 30 }, tokens, random.percent(30)).0;
        for right in 1..rights - 2 {
            if random.percent(50) {
                any_relation(random, &mut draft, right);
            }
        }
    } else {
        let subjects = random.pick(&[15, 24, 30, 30]);
        for name in 0..30 {
            draft.kinds[name] = if name < subjects { 2 } else { 1 };
        }
        for right in 0..rights {
            any_relation(random, &mut draft, right);
        }
    }
    let most = random.pick(&[4, 16, 32, 32, 32]).max(draft.rules.len());
    while draft.rules.len() < most {
        let section = any_rule(random, rights).section();
        let copies = random.pick(&[1, 1, 2, 8, 32]);
        let room = copies.min(most - draft.rules.len());
        draft.rules.extend(vec![section; room]);
    }
    if random.percent(25) {
        for _ in 0..random.between(1, 4) {
            let (one, other) = (right_of(random, &draft), right_of(random, &draft));
            draft.carry(one, other);
        }
    }
    let right = if walks && random.percent(70) {
        rights - 1
    } else {
        right_of(random, &draft)
    };
    (draft, right)
}

/// One to four changes by chance.
pub fn changed(random: &mut Random, (draft, right): &Asked, other: &Asked) -> Asked {
    let mut next = (draft.clone(), *right);
    for _ in 0..random.pick(&[1, 1, 1, 2, 2, 3, 4]) {
        change(random, &mut next, other);
    }
    next
}

fn change(random: &mut Random, (draft, right): &mut Asked, other: &Asked) {
    match random.below(20) {
        0..=8 => change_rules(random, draft),
        9 => add(random, draft),
        10 if draft.rules.len() > 1 => {
            let place = random.below(draft.rules.len());
            draft.rules.remove(place);
        }
        11 | 12 => copy(random, draft),
        13 => {
            let (s, o) = (random.below(30), random.below(30));
            draft.cells[NAMES * s + o] ^= 1 << right_of(random, draft);
            keep_to_kinds(draft);
        }
        14 => {
            let related = right_of(random, draft);
            any_relation(random, draft, related);
        }
        15 => {
            let (one, other) = (right_of(random, draft), right_of(random, draft));
            draft.carries[one as usize] ^= 1 << other;
        }
        16 => {
            // Too many names are refused.
            let name = random.below(NAMES);
            draft.kinds[name] = random.below(3) as u8;
            keep_to_kinds(draft);
        }
        17 => swap_names(random, draft),
        18 => merge(random, draft, &other.0),
        _ if random.percent(50) && draft.rights < RIGHTS => {
            draft.rights += 1;
            draft.carries.push(0);
        }
        _ => *right = right_of(random, draft),
    }
}

/// Changes a rule, and mostly all that are equal to it: slow files have many such.
fn change_rules(random: &mut Random, draft: &mut Draft) {
    if draft.rules.is_empty() {
        return;
    }
    let chosen = random.below(draft.rules.len());
    let old = draft.rules[chosen].clone();
    let mut parts = Parts::of(&old);
    change_rule(random, draft.rights, &mut parts);
    let new = parts.section();
    if random.percent(25) {
        draft.rules[chosen] = new;
        return;
    }
    for section in draft.rules.iter_mut().filter(|section| **section == old) {
        section.clone_from(&new);
    }
}

fn change_rule(random: &mut Random, rights: u8, parts: &mut Parts) {
    let blanks = parts.blanks;
    let count = parts.conditions.len();
    match random.below(10) {
        0 => *parts = any_rule(random, rights),
        1 | 2 if count > 0 => {
            let place = random.below(count);
            parts.conditions[place][0] = random.below(rights as usize) as u8;
        }
        3 | 4 if count > 0 => {
            let place = random.below(count);
            let part = random.between(1, 2);
            parts.conditions[place][part] = random.below(blanks as usize) as u8;
        }
        5 if count < CONDITIONS => parts.conditions.push(condition(random, rights, blanks)),
        6 if count > 0 => {
            parts.conditions.remove(random.below(count));
        }
        7 => parts.step = step(random, rights, blanks),
        8 if blanks < 4 => parts.blanks += 1,
        _ => swap_blanks(random, parts),
    }
}

/// Blanks are bound in order: exchanged, they are searched otherwise.
fn swap_blanks(random: &mut Random, parts: &mut Parts) {
    let [one, other] = [(); 2].map(|_| random.below(parts.blanks as usize) as u8);
    let swap = |blank: &mut u8| {
        if *blank == one {
            *blank = other;
        } else if *blank == other {
            *blank = one;
        }
    };
    for condition in &mut parts.conditions {
        condition[1..].iter_mut().for_each(swap);
    }
    let named = if matches!(parts.step[0], ENTER | DELETE) {
        2
    } else {
        1
    };
    parts.step[2..2 + named].iter_mut().for_each(swap);
}

fn add(random: &mut Random, draft: &mut Draft) {
    if draft.rules.len() < RULES {
        let place = random.below(draft.rules.len() + 1);
        let section = any_rule(random, draft.rights).section();
        draft.rules.insert(place, section);
    }
}

/// A rule once more: in place of another, of all that are equal to another, or added.
fn copy(random: &mut Random, draft: &mut Draft) {
    if draft.rules.is_empty() {
        return;
    }
    let [from, to] = [(); 2].map(|_| random.below(draft.rules.len()));
    let section = draft.rules[from].clone();
    match random.below(4) {
        0 => draft.rules[to] = section,
        1 => {
            let old = draft.rules[to].clone();
            for other in draft.rules.iter_mut().filter(|other| **other == old) {
                other.clone_from(&section);
            }
        }
        2 => draft.rules.swap(from, to),
        _ if draft.rules.len() < RULES => draft.rules.insert(to, section),
        _ => {}
    }
}

fn swap_names(random: &mut Random, draft: &mut Draft) {
    let (one, other) = (random.below(30), random.below(30));
    draft.kinds.swap(one, other);
    for name in 0..NAMES {
        draft.cells.swap(NAMES * one + name, NAMES * other + name);
    }
    for name in 0..NAMES {
        draft.cells.swap(NAMES * name + one, NAMES * name + other);
    }
}

/// Some rules of the other table in place of this one's, and maybe what stands in its
/// cells of a right.
fn merge(random: &mut Random, draft: &mut Draft, other: &Draft) {
    let rights = draft.rights.max(other.rights);
    draft.rights = rights;
    draft.carries.resize(rights as usize, 0);
    let chance = random.pick(&[10, 30, 60]);
    for (place, section) in other.rules.iter().enumerate() {
        if random.percent(chance) {
            match draft.rules.get_mut(place) {
                Some(own) => own.clone_from(section),
                None => draft.rules.push(section.clone()),
            }
        }
    }
    if random.percent(50) {
        let bit = 1 << right_of(random, other);
        for (own, cell) in draft.cells.iter_mut().zip(&other.cells) {
            *own = *own & !bit | cell & bit;
        }
        keep_to_kinds(draft);
    }
}
