//! What a press needs (document 02, C-14): the judge's steps, no right judged,
//! up to the first matrix that holds all the cells; or none.

use crate::file::{self, Contents, NAMES};
use crate::machine::AccessMatrix;
use crate::rounds::{refusal, Listing, Rounds};

pub const NEVER: u8 = 0;
pub const HELD: u8 = 255;

/// A list has at most so many cells, of three bytes each.
pub const MOST_CELLS: usize = 8;

/// A cell that must hold a right.
#[derive(Clone, Copy, Debug, PartialEq, Eq)]
pub struct Cell {
    pub right: u8,
    pub subject: u8,
    pub name: u8,
}

impl Cell {
    pub fn held<M: AccessMatrix>(&self, matrix: &M) -> bool {
        let cell = matrix.cell(u64::from(self.subject), u64::from(self.name));
        cell >> self.right & 1 == 1
    }

    /// Whether it can be asked for at all, as the start is.
    pub fn there(&self, contents: &Contents) -> bool {
        let is_name = |name: u8| usize::from(name) < NAMES;
        let matrix = &contents.matrix;
        self.right < contents.rights
            && is_name(self.subject)
            && matrix.is_subject(u64::from(self.subject))
            && is_name(self.name)
            && matrix.exists(u64::from(self.name))
    }
}

/// The whole cells of a list.
pub fn cells(list: &[u8]) -> Vec<Cell> {
    let cell = |bytes: &[u8]| Cell {
        right: bytes[0],
        subject: bytes[1],
        name: bytes[2],
    };
    list.chunks_exact(3).map(cell).collect()
}

pub fn all_held<M: AccessMatrix>(cells: &[Cell], matrix: &M) -> bool {
    cells.iter().all(|cell| cell.held(matrix))
}

/// The answer, and how it was come to.
#[derive(Clone, Copy, Debug, PartialEq, Eq)]
pub struct Account {
    /// `HELD`, `NEVER` or the refusal.
    pub code: u8,
    pub steps: u64,
    /// Steps of rules with spare blanks among them.
    pub spare: u64,
}

pub fn need(file: &[u8], list: &[u8], buffer: &mut [u8]) -> Account {
    match asked(file, list, buffer.len()) {
        Ok((contents, cells)) => answer(&contents, &cells, buffer),
        Err(refusal) => Account {
            code: refusal,
            steps: 0,
            spare: 0,
        },
    }
}

/// What is asked, or the refusal: the file's, 22, 23, 24, 41.
fn asked(file: &[u8], list: &[u8], length: usize) -> Result<(Contents, Vec<Cell>), u8> {
    let contents = file::read(file)?;
    refusal(&contents, length)?;
    let cells = cells(list);
    let whole = list.len() == 3 * cells.len();
    if !whole || cells.len() > MOST_CELLS || !cells.iter().all(|cell| cell.there(&contents)) {
        return Err(41);
    }
    Ok((contents, cells))
}

fn answer(contents: &Contents, cells: &[Cell], buffer: &mut [u8]) -> Account {
    let mut listing = Listing::new(&contents.rules, buffer);
    let held = all_held(cells, &contents.matrix)
        || Rounds::run(contents, &[], &mut listing, |done| {
            all_held(cells, &done.after)
        })
        .ended;
    Account {
        code: if held { HELD } else { NEVER },
        steps: listing.steps,
        spare: listing.spare,
    }
}
