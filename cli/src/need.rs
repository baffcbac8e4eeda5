//! What a press needs: the proved library's answer whether cells can be held at the same moment, with its steps told in
//! words and the matrix that they lead to.

pub mod json;
pub mod text;

use crate::failure::Failure;
use crate::house::{House, Matrix};
use crate::library::{self, Need};
use crate::limits::{BUFFER_BYTES, NEEDED_BYTES, STEP_BYTES};
use crate::machine::Held;
use crate::story::{carry_out_all, Done};

/// A list of cells as it was asked, with what was answered.
pub struct Answered {
    /// Three bytes a cell; the last one may be short of some.
    pub list: Vec<u8>,
    /// The steps that were written, under never too.
    pub trace: Vec<u8>,
    pub outcome: Outcome,
}

pub enum Outcome {
    Held(Way),
    /// With the cells of the list that can never be held, not even one by one.
    Never(Vec<Held>),
    Refused(u8),
}

/// A way to hold all cells.
pub struct Way {
    pub steps: Vec<Done>,
    /// What the steps lead to.
    pub after: Matrix,
}

/// The whole cells of a list.
pub fn cells(list: &[u8]) -> Vec<Held> {
    let number = |byte: u8| usize::from(byte);
    list.chunks_exact(NEEDED_BYTES)
        .map(|cell| (number(cell[0]), number(cell[1]), number(cell[2])))
        .collect()
}

/// Asks for the cells of a list on an accepted file.
pub fn ask(file: &[u8], house: &House, list: Vec<u8>) -> Result<Answered, Failure> {
    let mut buffer = vec![0; BUFFER_BYTES];
    let (written, outcome) = match library::need(file, &list, &mut buffer) {
        Need::Refused(refusal) => (0, Outcome::Refused(refusal)),
        Need::Never(n) => (n, Outcome::Never(out_of_reach(file, &list))),
        Need::Held(n) => {
            let trace = &buffer[..STEP_BYTES * n as usize];
            (n, Outcome::Held(way(file, house, &cells(&list), trace)?))
        }
    };
    buffer.truncate(STEP_BYTES * written as usize);
    Ok(Answered {
        list,
        trace: buffer,
        outcome,
    })
}

/// The cells that get the answer never when they are asked for alone, each once.
fn out_of_reach(file: &[u8], list: &[u8]) -> Vec<Held> {
    let mut buffer = vec![0; BUFFER_BYTES];
    let mut out = Vec::new();
    for cell in list.chunks_exact(NEEDED_BYTES) {
        let alone = library::need(file, cell, &mut buffer);
        let held = cells(cell)[0];
        if matches!(alone, Need::Never(_)) && !out.contains(&held) {
            out.push(held);
        }
    }
    out
}

/// The steps, carried out one after the other.
fn way(file: &[u8], house: &House, wanted: &[Held], trace: &[u8]) -> Result<Way, Failure> {
    let (steps, after) = carry_out_all(file, house, trace).ok_or_else(astray)?;
    let held = |&(right, subject, name): &Held| after.matrix.cell(subject, name).has(right);
    match wanted.iter().all(held) {
        true => Ok(Way {
            steps,
            after: after.matrix,
        }),
        false => Err(astray()),
    }
}

/// The proofs exclude this; should it be seen all the same, nothing is told that was not carried out.
fn astray() -> Failure {
    Failure::said(
        "the steps do not lead to the cells",
        "this is a fault of the program: please report it with the file and the cells",
    )
}
