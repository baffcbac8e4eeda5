//! What the bytes of an accepted file say. It shares no code with the encoder, whose work it is compared with.

use super::carries::Carries;
use super::sections::{number, sections};
use super::{Condition, House, Kind, Matrix, Operation, RightSet, Rule};
use crate::limits::{
    CONDITION_BYTES, FIXED_SECTIONS, NAMES, OPERATION_BYTES, RULE_HEAD_BYTES, SET_BYTES,
};

/// The contents of a file that the proved reader accepts.
pub fn decode(file: &[u8]) -> House {
    let all = sections(file);
    let kinds = &file[all[0].clone()];
    let cells = &file[all[1].clone()];
    let carries = &file[all[2].clone()];
    let mut matrix = Matrix::empty();
    for (name, &byte) in kinds.iter().enumerate() {
        matrix.kinds[name] = kind(byte);
    }
    for (place, cell) in cells.chunks(SET_BYTES).enumerate() {
        *matrix.cell_mut(place / NAMES, place % NAMES) = rights(cell);
    }
    let rules = all.into_iter().skip(FIXED_SECTIONS);
    House {
        rights: usize::from(file[0]),
        carries: Carries::new(carries.chunks(SET_BYTES).map(rights).collect()),
        matrix,
        rules: rules.map(|section| rule(&file[section])).collect(),
    }
}

fn kind(byte: u8) -> Kind {
    match byte {
        2 => Kind::Subject,
        1 => Kind::Object,
        _ => Kind::Absent,
    }
}

fn rights(set: &[u8]) -> RightSet {
    let number = number(set);
    let mut rights = RightSet::default();
    for right in 0..8 * SET_BYTES {
        if number / (1 << right) % 2 == 1 {
            rights.insert(right);
        }
    }
    rights
}

fn rule(section: &[u8]) -> Rule {
    let (head, rest) = section.split_at(RULE_HEAD_BYTES);
    let (tests, steps) = rest.split_at(CONDITION_BYTES * usize::from(head[1]));
    Rule {
        blanks: usize::from(head[0]),
        conditions: tests.chunks(CONDITION_BYTES).map(condition).collect(),
        steps: steps.chunks(OPERATION_BYTES).map(operation).collect(),
    }
}

fn condition(bytes: &[u8]) -> Condition {
    Condition {
        right: usize::from(bytes[0]),
        subject: usize::from(bytes[1]),
        object: usize::from(bytes[2]),
    }
}

fn operation(bytes: &[u8]) -> Operation {
    let right = usize::from(bytes[1]);
    let subject = usize::from(bytes[2]);
    let object = usize::from(bytes[3]);
    match bytes[0] {
        1 => Operation::Enter {
            right,
            subject,
            object,
        },
        2 => Operation::Delete {
            right,
            subject,
            object,
        },
        3 => Operation::CreateSubject(subject),
        4 => Operation::CreateObject(subject),
        5 => Operation::DestroySubject(subject),
        _ => Operation::DestroyObject(subject),
    }
}
