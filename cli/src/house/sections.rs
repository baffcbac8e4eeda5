//! Where the sections of a file lie, by its table of pairs.

use crate::limits::{HEADER_BYTES, MATRIX_SECTIONS, PAIR_BYTES};
use std::ops::Range;

/// The number whose bytes are these, low byte first.
pub fn number(bytes: &[u8]) -> usize {
    bytes
        .iter()
        .rev()
        .fold(0, |high, &byte| 256 * high + usize::from(byte))
}

/// The sections of a file that the proved reader accepts: kinds, cells, carries, rules.
pub fn sections(file: &[u8]) -> Vec<Range<usize>> {
    let count = usize::from(file[1]);
    let pairs = &file[HEADER_BYTES..HEADER_BYTES + PAIR_BYTES * count];
    let section = |pair: &[u8]| {
        let start = number(&pair[..2]);
        start..start + number(&pair[2..])
    };
    pairs.chunks(PAIR_BYTES).map(section).collect()
}

/// Whether two accepted files differ in kinds and cells alone: number of rights, carries and rules are the same, byte for
/// byte.
pub fn same_rules(one: &[u8], other: &[u8]) -> bool {
    let lasting = |file: &[u8]| -> Vec<Vec<u8>> {
        let all = sections(file);
        let lasting = all.into_iter().skip(MATRIX_SECTIONS);
        lasting.map(|section| file[section].to_vec()).collect()
    };
    one[0] == other[0] && lasting(one) == lasting(other)
}
