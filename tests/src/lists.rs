//! Lists of cells that a press may need: such as can be asked for, and such as
//! 41 refuses, by its reasons.

use crate::file::{Contents, NAMES, RIGHTS};
use crate::machine::{AccessMatrix, Bounded, Kind};
use crate::need::{Cell, MOST_CELLS};
use crate::random::Random;

/// All cells of the start's subjects and names, right by right.
pub fn all_cells(contents: &Contents) -> Vec<Cell> {
    let mut all = Vec::new();
    for subject in contents.matrix.subjects() {
        for name in contents.matrix.names() {
            for right in 0..contents.rights {
                all.push(Cell {
                    right,
                    subject: subject as u8,
                    name: name as u8,
                });
            }
        }
    }
    all
}

pub fn bytes(cells: &[Cell]) -> Vec<u8> {
    let of = |cell: &Cell| [cell.right, cell.subject, cell.name];
    cells.iter().flat_map(of).collect()
}

/// Up to 8 cells of the start; a cell may be there twice. With `last`, the
/// matrix that the rounds end with, it holds all of them mostly.
pub fn any_cells(random: &mut Random, contents: &Contents, last: &Bounded) -> Vec<Cell> {
    let (held, lacking): (Vec<Cell>, Vec<Cell>) =
        all_cells(contents).iter().partition(|cell| cell.held(last));
    let new = |cell: &&Cell| !cell.held(&contents.matrix);
    let entered: Vec<Cell> = held.iter().filter(new).copied().collect();
    let count = random.pick(&[1, 1, 2, 2, 3, 4, 6, MOST_CELLS]);
    let out = random.percent(30);
    let mut cells = Vec::new();
    for at in 0..count {
        let sort = if out && at == 0 {
            &lacking
        } else if random.percent(75) {
            // Mostly such as the start lacks, so that there are steps to do.
            &entered
        } else {
            &held
        };
        cells.extend(some(random, sort));
    }
    random.shuffle(&mut cells);
    cells
}

/// A reason of 41.
#[derive(Clone, Copy, Debug, PartialEq, Eq)]
pub enum Reason {
    PartOfCell,
    TooMany,
    NoRight,
    FirstIsObject,
    FirstIsAbsent,
    FirstAbove31,
    SecondIsAbsent,
    SecondAbove31,
}

pub const REASONS: [Reason; 8] = [
    Reason::PartOfCell,
    Reason::TooMany,
    Reason::NoRight,
    Reason::FirstIsObject,
    Reason::FirstIsAbsent,
    Reason::FirstAbove31,
    Reason::SecondIsAbsent,
    Reason::SecondAbove31,
];

/// A list that is refused for this reason and no other; None where the file has
/// no such list. The list that is given can be asked for.
pub fn spoiled(
    random: &mut Random,
    contents: &Contents,
    cells: &[Cell],
    reason: Reason,
) -> Option<Vec<u8>> {
    let all = all_cells(contents);
    let mut list = bytes(cells);
    match reason {
        Reason::PartOfCell => {
            if list.len() == 3 * MOST_CELLS || random.percent(50) {
                list.truncate(list.len().checked_sub(3)?);
            }
            let more = bytes(&[some(random, &all)?]);
            list.extend(&more[..random.between(1, 2)]);
        }
        Reason::TooMany => {
            let wanted = random.pick(&[MOST_CELLS + 1, MOST_CELLS + 1, 16, 86, 300]);
            while list.len() < 3 * wanted {
                list.extend(bytes(&[some(random, &all)?]));
            }
        }
        _ => {
            let (place, byte) = wrong_byte(random, contents, reason)?;
            let at = random.below(cells.len().max(1));
            *list.get_mut(3 * at + place)? = byte;
        }
    }
    Some(list)
}

fn some<T: Copy>(random: &mut Random, from: &[T]) -> Option<T> {
    (!from.is_empty()).then(|| random.pick(from))
}

/// Which byte of a cell, and what stands there.
fn wrong_byte(random: &mut Random, contents: &Contents, reason: Reason) -> Option<(usize, u8)> {
    let of_kind = |kind: Kind| -> Vec<u8> {
        let names = 0..NAMES as u8;
        names
            .filter(|&name| contents.matrix.kind(u64::from(name)) == kind)
            .collect()
    };
    let above = [32, 33, 63, 64, 128, 224, 255];
    Some(match reason {
        Reason::NoRight => (
            0,
            some(random, &[contents.rights, contents.rights, RIGHTS, 31, 255])?,
        ),
        Reason::FirstIsObject => (1, some(random, &of_kind(Kind::Object))?),
        Reason::FirstIsAbsent => (1, some(random, &of_kind(Kind::Absent))?),
        Reason::FirstAbove31 => (1, some(random, &above)?),
        Reason::SecondIsAbsent => (2, some(random, &of_kind(Kind::Absent))?),
        Reason::SecondAbove31 => (2, some(random, &above)?),
        Reason::PartOfCell | Reason::TooMany => return None,
    })
}
