//! The bytes of a house file.

use super::{Condition, House, Kind, Operation, RightSet, Rule};
use crate::limits::{HEADER_BYTES, NAMES, PAIR_BYTES, SET_BYTES};

pub fn encode(house: &House) -> Vec<u8> {
    let mut sections = vec![kinds(house), cells(house), carries(house)];
    sections.extend(house.rules.iter().map(rule));
    let mut file = vec![byte(house.rights), byte(sections.len())];
    let mut offset = HEADER_BYTES + PAIR_BYTES * sections.len();
    for section in &sections {
        file.extend(two_bytes(offset));
        file.extend(two_bytes(section.len()));
        offset += section.len();
    }
    file.extend(sections.concat());
    file
}

fn kinds(house: &House) -> Vec<u8> {
    let number = |kind: &Kind| match kind {
        Kind::Absent => 0,
        Kind::Object => 1,
        Kind::Subject => 2,
    };
    house.matrix.kinds.iter().map(number).collect()
}

fn cells(house: &House) -> Vec<u8> {
    let pairs = (0..NAMES).flat_map(|s| (0..NAMES).map(move |o| (s, o)));
    pairs
        .flat_map(|(s, o)| set(house.matrix.cell(s, o)))
        .collect()
}

fn carries(house: &House) -> Vec<u8> {
    let sets = house.carries.sets().iter();
    sets.flat_map(|&rights| set(rights)).collect()
}

fn set(rights: RightSet) -> Vec<u8> {
    rights.0.to_le_bytes()[..SET_BYTES].to_vec()
}

fn rule(rule: &Rule) -> Vec<u8> {
    let mut section = vec![
        byte(rule.blanks),
        byte(rule.conditions.len()),
        byte(rule.steps.len()),
    ];
    section.extend(rule.conditions.iter().flat_map(condition));
    section.extend(rule.steps.iter().flat_map(operation));
    section
}

fn condition(condition: &Condition) -> [u8; 3] {
    [
        byte(condition.right),
        byte(condition.subject),
        byte(condition.object),
    ]
}

fn operation(operation: &Operation) -> [u8; 4] {
    match *operation {
        Operation::Enter {
            right,
            subject,
            object,
        } => [1, byte(right), byte(subject), byte(object)],
        Operation::Delete {
            right,
            subject,
            object,
        } => [2, byte(right), byte(subject), byte(object)],
        Operation::CreateSubject(blank) => [3, 0, byte(blank), 0],
        Operation::CreateObject(blank) => [4, 0, byte(blank), 0],
        Operation::DestroySubject(blank) => [5, 0, byte(blank), 0],
        Operation::DestroyObject(blank) => [6, 0, byte(blank), 0],
    }
}

fn byte(number: usize) -> u8 {
    u8::try_from(number).expect("within the limits")
}

fn two_bytes(number: usize) -> [u8; 2] {
    u16::try_from(number)
        .expect("within the limits")
        .to_le_bytes()
}
