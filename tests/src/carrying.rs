//! Rights that carry others (document 02, C-19).

use crate::file::Set;

/// The rights that a right carries, itself first: entry i of `carries` is the set
/// of rights that right i carries in the file, and carrying goes on through
/// further rights.
pub fn carried(carries: &[Set], right: u8) -> Vec<u8> {
    let mut carried = vec![right];
    let mut at = 0;
    while let Some(&next) = carried.get(at) {
        for further in 0..carries.len() as u8 {
            if carries[next as usize] >> further & 1 == 1 && !carried.contains(&further) {
                carried.push(further);
            }
        }
        at += 1;
    }
    carried
}

/// Of each right the set of rights that carry it, by any of which in a cell a
/// condition on it holds.
pub fn carriers(carries: &[Set]) -> Vec<Set> {
    let mut carriers = vec![0; carries.len()];
    for right in 0..carries.len() as u8 {
        for other in carried(carries, right) {
            carriers[other as usize] |= 1 << right;
        }
    }
    carriers
}
