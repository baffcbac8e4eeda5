//! Lists of trusted names: such as can be left out, and such as 42 refuses, by
//! its reasons; and tables with an office of trusted names in them.

use crate::file::NAMES;
use crate::generate::Draft;
use crate::machine::{AccessMatrix, Bounded};
use crate::random::Random;

/// Names of the matrix in any order: none, one, some or all.
pub fn any_names(random: &mut Random, matrix: &Bounded) -> Vec<u8> {
    let mut names: Vec<u8> = matrix.names().iter().map(|&name| name as u8).collect();
    random.shuffle(&mut names);
    let count = match random.below(8) {
        0 => 0,
        1 => names.len(),
        2 | 3 => 1,
        _ => random.below(names.len() + 1),
    };
    names.truncate(count);
    names
}

/// Adds names to a draft, mostly subjects and mostly with many rights in rows and
/// columns, and gives them: without them the draft is what it was.
pub fn office(random: &mut Random, draft: &mut Draft) -> Vec<u8> {
    let mut absent: Vec<usize> = (0..NAMES).filter(|&name| draft.kinds[name] == 0).collect();
    // The lowest ones, so that a created name lies behind them.
    if random.percent(40) {
        random.shuffle(&mut absent);
    }
    let room = absent.len().saturating_sub(2);
    absent.truncate(random.pick(&[1, 1, 2, 2, 3, 5]).min(room));
    let density = random.pick(&[20, 60, 100]);
    for &name in &absent {
        draft.kinds[name] = if random.percent(80) { 2 } else { 1 };
    }
    for &name in &absent {
        for other in (0..NAMES)
            .filter(|&other| draft.kinds[other] > 0)
            .collect::<Vec<_>>()
        {
            for right in 0..draft.rights {
                for (subject, object) in [(name, other), (other, name)] {
                    if draft.kinds[subject] == 2 && random.percent(density) {
                        draft.put(subject, object, right);
                    }
                }
            }
        }
    }
    random.shuffle(&mut absent);
    absent.iter().map(|&name| name as u8).collect()
}

/// A reason of 42.
#[derive(Clone, Copy, Debug, PartialEq, Eq)]
pub enum Reason {
    Absent,
    Above31,
    Twice,
}

pub const REASONS: [Reason; 3] = [Reason::Absent, Reason::Above31, Reason::Twice];

/// The list with a byte that is refused for this reason and no other, at any
/// place; None where there is no such byte.
pub fn spoiled(
    random: &mut Random,
    matrix: &Bounded,
    list: &[u8],
    reason: Reason,
) -> Option<Vec<u8>> {
    let absent = |name: &u8| !matrix.exists(u64::from(*name));
    let choices: Vec<u8> = match reason {
        Reason::Absent => (0..NAMES as u8).filter(absent).collect(),
        // Among them such as a name of the matrix is the rest of.
        Reason::Above31 => {
            let of = |name: u64| [32, 64, 128, 224].map(|more| name as u8 + more);
            let above = matrix.names().into_iter().flat_map(of);
            above.chain([32, 33, 255]).collect()
        }
        Reason::Twice => list.to_vec(),
    };
    if choices.is_empty() {
        return None;
    }
    let mut spoiled = list.to_vec();
    spoiled.insert(random.below(list.len() + 1), random.pick(&choices));
    Some(spoiled)
}
