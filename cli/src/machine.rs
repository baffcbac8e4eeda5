//! Conditions and the six operations on a matrix, to tell in words what a rule run did and what it went by. What counts is
//! the proved library's answer; what is found here is told only where it agrees with that answer.

use crate::house::{Condition, House, Kind, Matrix, Operation};
use crate::limits::NAMES;

/// A right in a cell: right, subject, object.
pub type Held = (usize, usize, usize);

/// What an operation did, with names in place of blanks.
#[derive(Clone, Debug, PartialEq, Eq)]
pub enum Act {
    /// `new`: the cell lacked the right.
    Enter {
        held: Held,
        new: bool,
    },
    /// `gone`: the cell held the right.
    Delete {
        held: Held,
        gone: bool,
    },
    Create {
        name: usize,
        kind: Kind,
    },
    /// With the rights that went with row and column.
    Destroy {
        name: usize,
        kind: Kind,
        lost: Vec<Held>,
    },
}

/// Why an operation cannot be done, or a condition does not hold.
#[derive(Clone, Copy, Debug, PartialEq, Eq)]
pub enum Why {
    NoSubject(usize),
    Absent(usize),
    There(usize),
    /// A subject where an object that is none is needed.
    Subject(usize),
    /// Neither the right nor one that carries it is in the cell.
    Lacks(usize),
}

/// What a condition went by: the right that it asks for, in its cell, and the right that was there and carries it, most
/// often the same one.
#[derive(Clone, Copy, Debug, PartialEq, Eq)]
pub struct Ground {
    pub asked: Held,
    pub by: usize,
}

impl Ground {
    /// The right that was there, in its cell.
    pub fn held(self) -> Held {
        (self.by, self.asked.1, self.asked.2)
    }

    /// Whether another right than the one asked for was there.
    pub fn carried(self) -> bool {
        self.by != self.asked.0
    }
}

/// What a condition goes by, or why it does not hold. The blanks that it names have names.
pub fn ground(house: &House, condition: &Condition, names: &[usize]) -> Result<Ground, Why> {
    let (subject, object) = (names[condition.subject], names[condition.object]);
    let (s, o) = reachable(&house.matrix, subject, object)?;
    let cell = house.matrix.cell(s, o);
    let by = house.carries.ground(cell, condition.right);
    Ok(Ground {
        asked: (condition.right, s, o),
        by: by.ok_or(Why::Lacks(condition.right))?,
    })
}

/// Does an operation, if it can be done. The blanks that it names have names.
pub fn perform(matrix: &mut Matrix, operation: Operation, names: &[usize]) -> Result<Act, Why> {
    match operation {
        Operation::Enter {
            right,
            subject,
            object,
        } => {
            let (s, o) = reachable(matrix, names[subject], names[object])?;
            let new = !matrix.cell(s, o).has(right);
            matrix.cell_mut(s, o).insert(right);
            let held = (right, s, o);
            Ok(Act::Enter { held, new })
        }
        Operation::Delete {
            right,
            subject,
            object,
        } => {
            let (s, o) = reachable(matrix, names[subject], names[object])?;
            let gone = matrix.cell(s, o).has(right);
            matrix.cell_mut(s, o).remove(right);
            let held = (right, s, o);
            Ok(Act::Delete { held, gone })
        }
        Operation::CreateSubject(blank) => create(matrix, names[blank], Kind::Subject),
        Operation::CreateObject(blank) => create(matrix, names[blank], Kind::Object),
        Operation::DestroySubject(blank) => destroy(matrix, names[blank], Kind::Subject),
        Operation::DestroyObject(blank) => destroy(matrix, names[blank], Kind::Object),
    }
}

/// A cell that is there: its row is a subject's, its column that of an existing name.
pub fn reachable(matrix: &Matrix, subject: usize, object: usize) -> Result<(usize, usize), Why> {
    match (matrix.kinds[subject], matrix.kinds[object]) {
        (Kind::Absent, _) => Err(Why::Absent(subject)),
        (Kind::Object, _) => Err(Why::NoSubject(subject)),
        (_, Kind::Absent) => Err(Why::Absent(object)),
        _ => Ok((subject, object)),
    }
}

fn create(matrix: &mut Matrix, name: usize, kind: Kind) -> Result<Act, Why> {
    if matrix.kinds[name] != Kind::Absent {
        return Err(Why::There(name));
    }
    matrix.kinds[name] = kind;
    Ok(Act::Create { name, kind })
}

fn destroy(matrix: &mut Matrix, name: usize, kind: Kind) -> Result<Act, Why> {
    match (matrix.kinds[name], kind) {
        (Kind::Absent, _) => return Err(Why::Absent(name)),
        (Kind::Object, Kind::Subject) => return Err(Why::NoSubject(name)),
        (Kind::Subject, Kind::Object) => return Err(Why::Subject(name)),
        _ => {}
    }
    let lost = held_with(matrix, name);
    for &(right, subject, object) in &lost {
        matrix.cell_mut(subject, object).remove(right);
    }
    matrix.kinds[name] = Kind::Absent;
    Ok(Act::Destroy { name, kind, lost })
}

/// The rights in the row and in the column of a name.
fn held_with(matrix: &Matrix, name: usize) -> Vec<Held> {
    let row = (0..NAMES).map(|other| (name, other));
    let column = (0..NAMES).map(|other| (other, name));
    let cells = row.chain(column.filter(|&(subject, _)| subject != name));
    cells
        .flat_map(|(s, o)| matrix.cell(s, o).iter().map(move |right| (right, s, o)))
        .collect()
}
