//! Damaging files: planted faults whose refusal is known, and wrong tables.

use crate::file::{Set, RIGHTS};
use crate::generate::{joined, Draft};
use crate::random::Random;

/// A fault, in the order in which document 01 has faults reported; a rule's
/// faults come rule by rule.
#[derive(Clone, Copy, Debug, PartialEq, Eq, PartialOrd, Ord)]
pub enum Fault {
    Size,
    Rights,
    Pairs,
    CutTable,
    Table,
    MatrixLength,
    Kind,
    Cell,
    Carried,
    Rule(usize, RuleFault),
}

#[derive(Clone, Copy, Debug, PartialEq, Eq, PartialOrd, Ord)]
pub enum RuleFault {
    UnderThree,
    Head,
    Length,
    Body,
}

impl Fault {
    pub fn refusal(&self) -> u8 {
        match self {
            Fault::Size | Fault::CutTable => 1,
            Fault::Rights => 2,
            Fault::Pairs => 3,
            Fault::Table => 4,
            Fault::MatrixLength => 5,
            Fault::Kind => 6,
            Fault::Cell => 7,
            Fault::Carried => 44,
            Fault::Rule(_, RuleFault::UnderThree | RuleFault::Length) => 5,
            Fault::Rule(_, RuleFault::Head) => 8,
            Fault::Rule(_, RuleFault::Body) => 9,
        }
    }

    pub fn any(random: &mut Random, rules: usize) -> Fault {
        let choices = if rules == 0 { 9 } else { 15 };
        match random.below(choices) {
            0 => Fault::Size,
            1 => Fault::Rights,
            2 => Fault::Pairs,
            3 => Fault::CutTable,
            4 => Fault::Table,
            5 => Fault::MatrixLength,
            6 => Fault::Kind,
            7 => Fault::Cell,
            8 => Fault::Carried,
            _ => {
                let faults = [
                    RuleFault::UnderThree,
                    RuleFault::Head,
                    RuleFault::Length,
                    RuleFault::Body,
                ];
                Fault::Rule(random.below(rules), random.pick(&faults))
            }
        }
    }
}

/// The draft's file with the faults in it. Those reported later are planted
/// first, so that an earlier one never takes a later one's place away.
pub fn plant(random: &mut Random, draft: &Draft, faults: &[Fault]) -> Vec<u8> {
    let mut faults = faults.to_vec();
    faults.sort();
    // The same fault twice might undo itself.
    faults.dedup();
    faults.reverse();
    let mut draft = draft.clone();
    for fault in &faults {
        match *fault {
            Fault::Rule(rule, kind) => plant_in_rule(random, &mut draft, rule, kind),
            Fault::Cell => plant_in_cell(random, &mut draft),
            Fault::Carried => plant_in_carries(random, &mut draft),
            Fault::Kind => {
                let name = random.below(draft.kinds.len());
                draft.kinds[name] = random.between(3, 255) as u8;
            }
            _ => {}
        }
    }
    let mut sections = draft.sections();
    if faults.contains(&Fault::MatrixLength) {
        let section = random.pick(&[0, 1, 2]);
        let length = sections[section].len();
        sections[section].resize(wrong_length(random, length), 0);
    }
    let mut file = joined(draft.rights, &sections);
    for fault in &faults {
        match *fault {
            Fault::Table => {
                let pairs = file[1] as usize;
                let field = 2 + 2 * random.below(2 * pairs);
                let value = u16::from_le_bytes([file[field], file[field + 1]]);
                let change = match random.below(4) {
                    0 => 1,
                    1 => u16::MAX,
                    2 => 256,
                    _ => random.between(1, 65_535) as u16,
                };
                let wrong = value.wrapping_add(change).to_le_bytes();
                file[field..field + 2].copy_from_slice(&wrong);
            }
            Fault::CutTable => {
                let needed = 2 + 4 * file[1] as usize;
                file.truncate(random.between(2, needed - 1));
            }
            Fault::Pairs => file[1] = random.pick(&[0, 1, 2, 36, 37, 64, 128, 255]),
            Fault::Rights => file[0] = random.pick(&[0, RIGHTS + 1, RIGHTS + 2, 16, 128, 255]),
            Fault::Size => {
                if random.percent(50) {
                    file.truncate(random.below(2));
                } else {
                    let length = random.pick(&[4097, 4098, 5000, 8192, 65_536, 70_000]);
                    file.resize(length, 0);
                }
            }
            _ => {}
        }
    }
    file
}

/// A length of kinds, cells or carries that is none: among others a byte too few or
/// too many, and half, as if a set had one byte.
fn wrong_length(random: &mut Random, length: usize) -> usize {
    match random.below(6) {
        0 => 0,
        1 => length - 1,
        2 => length + 1,
        3 => length / 2,
        4 => length - random.between(1, length),
        _ => length + random.between(1, 200),
    }
}

/// The bit of a right that the file does not have, in the low byte or the high one.
fn bit_outside(random: &mut Random, rights: u8) -> Set {
    1 << random.between(usize::from(rights), 15)
}

fn plant_in_cell(random: &mut Random, draft: &mut Draft) {
    let (s, o) = (random.below(32), random.below(32));
    let cell = &mut draft.cells[32 * s + o];
    if draft.kinds[s] == 2 && draft.kinds[o] != 0 {
        *cell |= bit_outside(random, draft.rights);
        return;
    }
    // Where it must be 0: rights of the file, in one of its bytes or both, or any.
    let of_file = (1 << draft.rights) - 1;
    let any = random.between(1, 65_535) as Set;
    *cell = match random.below(4) {
        0 if any & of_file & 255 != 0 => any & of_file & 255,
        1 if any & of_file >> 8 << 8 != 0 => any & of_file >> 8 << 8,
        2 => bit_outside(random, draft.rights),
        _ => any,
    };
}

/// A carried right from g on.
fn plant_in_carries(random: &mut Random, draft: &mut Draft) {
    let right = random.below(draft.carries.len());
    draft.carries[right] |= bit_outside(random, draft.rights);
}

fn plant_in_rule(random: &mut Random, draft: &mut Draft, rule: usize, fault: RuleFault) {
    let rights = draft.rights;
    let section = &mut draft.rules[rule];
    match fault {
        RuleFault::UnderThree => section.truncate(random.below(3)),
        RuleFault::Head => match random.below(3) {
            0 => section[0] = random.pick(&[0, 5, 6, 255]),
            1 => section[1] = random.pick(&[5, 6, 128, 255]),
            _ => section[2] = random.pick(&[0, 7, 8, 255]),
        },
        RuleFault::Length => {
            if random.percent(50) {
                section.resize(section.len() + random.between(1, 8), 0);
            } else {
                section.truncate(section.len() - random.between(1, 4));
            }
        }
        RuleFault::Body => {
            let (k, c, m) = (section[0], section[1] as usize, section[2] as usize);
            let item = random.below(c + m);
            if item < c {
                let at = 3 + 3 * item;
                match random.below(3) {
                    0 => section[at] = random.between(rights as usize, 255) as u8,
                    1 => section[at + 1] = random.between(k as usize, 255) as u8,
                    _ => section[at + 2] = random.between(k as usize, 255) as u8,
                }
                return;
            }
            let at = 3 + 3 * c + 4 * (item - c);
            let cells = section[at] <= 2;
            match random.below(4) {
                0 => section[at] = random.pick(&[0, 7, 8, 255]),
                1 if cells => section[at + 1] = random.between(rights as usize, 255) as u8,
                1 => section[at + 1] = random.between(1, 255) as u8,
                2 => section[at + 2] = random.between(k as usize, 255) as u8,
                _ if cells => section[at + 3] = random.between(k as usize, 255) as u8,
                _ => section[at + 3] = random.between(1, 255) as u8,
            }
        }
    }
}

/// An offset or a length of the table, of 16 bits.
fn field(file: &[u8], at: usize) -> usize {
    u16::from_le_bytes([file[at], file[at + 1]]) as usize
}

fn set_field(file: &mut [u8], at: usize, value: usize) {
    file[at..at + 2].copy_from_slice(&(value as u16).to_le_bytes());
}

/// A table of pairs that is wrong, or right with wrong lengths.
pub fn wrong_table(random: &mut Random, draft: &Draft) -> Vec<u8> {
    let mut file = draft.file();
    let pairs = file[1] as usize;
    let offset_at = |pair: usize| 2 + 4 * pair;
    let length_at = |pair: usize| 4 + 4 * pair;
    let pair = random.below(pairs);
    let other = random.below(pairs);
    match random.below(10) {
        // One offset or one length shifted.
        0 => {
            let at = 2 + 2 * random.below(2 * pairs);
            let shift = random.pick(&[1, 2, 4, 256, 32_768, 65_280, 65_535]);
            let value = field(&file, at) + shift;
            set_field(&mut file, at, value % 65_536);
        }
        // Two pairs swapped: not sorted by offset.
        1 => {
            for i in 0..4 {
                file.swap(offset_at(pair) + i, offset_at(other) + i);
            }
        }
        // Offset and length swapped.
        2 => {
            file.swap(offset_at(pair), length_at(pair));
            file.swap(offset_at(pair) + 1, length_at(pair) + 1);
        }
        // Two sections over the same bytes.
        3 => {
            let same = field(&file, offset_at(other));
            set_field(&mut file, offset_at(pair), same);
        }
        // Consistent modulo 65,536 only: two neighbours whose sums wrap.
        4 | 5 => {
            let first = random.below(pairs - 1);
            let end = field(&file, offset_at(first + 1)) + field(&file, length_at(first + 1));
            let wrapped = random.below(end + 1);
            let long = 65_536 + wrapped - field(&file, offset_at(first));
            if long < 65_536 {
                set_field(&mut file, length_at(first), long);
                set_field(&mut file, offset_at(first + 1), wrapped);
                set_field(&mut file, length_at(first + 1), end - wrapped);
            } else {
                set_field(&mut file, length_at(first), 65_535);
            }
        }
        // A gap before a section, all later offsets moved along.
        6 => {
            let gap = random.between(1, 9);
            let at = field(&file, offset_at(pair));
            for later in pair..pairs {
                let moved = field(&file, offset_at(later)) + gap;
                set_field(&mut file, offset_at(later), moved);
            }
            for _ in 0..gap {
                file.insert(at, 0);
            }
        }
        // A section's bytes given to its neighbour: in order, wrong lengths.
        7 => {
            let first = random.below(pairs - 1);
            let both = field(&file, length_at(first))
                + field(&file, offset_at(first))
                + field(&file, length_at(first + 1));
            let border = random.between(field(&file, offset_at(first)), both);
            let start = field(&file, offset_at(first));
            set_field(&mut file, length_at(first), border - start);
            set_field(&mut file, offset_at(first + 1), border);
            set_field(&mut file, length_at(first + 1), both - border);
        }
        // One pair more or fewer than the table has.
        8 => {
            file[1] = if random.percent(50) {
                file[1] + 1
            } else {
                file[1] - 1
            };
        }
        // The last section ends before or behind the file's end.
        _ => {
            let at = length_at(pairs - 1);
            let value = field(&file, at) + random.pick(&[1, 5, 65_535, 65_531]);
            set_field(&mut file, at, value % 65_536);
        }
    }
    file
}
