//! What a house file says, in numbers: the matrix and the rules.

pub mod carries;
pub mod decode;
pub mod encode;
pub mod place;
pub mod sections;

use crate::limits::{NAMES, RIGHTS};
use carries::Carries;

#[derive(Clone, Copy, Debug, PartialEq, Eq)]
pub enum Kind {
    Absent,
    Object,
    Subject,
}

/// A set of rights: bit i is right i.
#[derive(Clone, Copy, Debug, Default, PartialEq, Eq)]
pub struct RightSet(pub u16);

const _: () = assert!(RIGHTS <= u16::BITS as usize, "a bit for each right");

impl RightSet {
    pub fn has(self, right: usize) -> bool {
        self.0 >> right & 1 == 1
    }

    pub fn insert(&mut self, right: usize) {
        self.0 |= 1 << right;
    }

    pub fn remove(&mut self, right: usize) {
        self.0 &= !(1 << right);
    }

    pub fn is_empty(self) -> bool {
        self.0 == 0
    }

    /// The rights in the set, in order.
    pub fn iter(self) -> impl Iterator<Item = usize> {
        (0..u16::BITS as usize).filter(move |&right| self.has(right))
    }
}

/// The right, or one that carries it, is in the cell of two blanks.
#[derive(Clone, Copy, Debug, PartialEq, Eq)]
pub struct Condition {
    pub right: usize,
    pub subject: usize,
    pub object: usize,
}

/// A step of a rule: one of the six primitive operations, on blanks.
#[derive(Clone, Copy, Debug, PartialEq, Eq)]
pub enum Operation {
    Enter {
        right: usize,
        subject: usize,
        object: usize,
    },
    Delete {
        right: usize,
        subject: usize,
        object: usize,
    },
    CreateSubject(usize),
    CreateObject(usize),
    DestroySubject(usize),
    DestroyObject(usize),
}

impl Operation {
    /// The blanks that the operation names.
    pub fn blanks(self) -> Vec<usize> {
        match self {
            Operation::Enter {
                subject, object, ..
            }
            | Operation::Delete {
                subject, object, ..
            } => vec![subject, object],
            Operation::CreateSubject(blank)
            | Operation::CreateObject(blank)
            | Operation::DestroySubject(blank)
            | Operation::DestroyObject(blank) => vec![blank],
        }
    }
}

#[derive(Clone, Debug, PartialEq, Eq)]
pub struct Rule {
    pub blanks: usize,
    pub conditions: Vec<Condition>,
    pub steps: Vec<Operation>,
}

impl Rule {
    /// The blanks that no condition and no step names.
    pub fn spare(&self) -> Vec<usize> {
        let tested = self.conditions.iter().flat_map(|c| [c.subject, c.object]);
        let used = self.steps.iter().flat_map(|step| step.blanks());
        let named: Vec<usize> = tested.chain(used).collect();
        (0..self.blanks).filter(|b| !named.contains(b)).collect()
    }
}

/// The access matrix: the kind of each name and the cells, row by row.
#[derive(Clone, Debug, PartialEq, Eq)]
pub struct Matrix {
    pub kinds: [Kind; NAMES],
    cells: Vec<RightSet>,
}

impl Matrix {
    pub fn empty() -> Matrix {
        Matrix {
            kinds: [Kind::Absent; NAMES],
            cells: vec![RightSet::default(); NAMES * NAMES],
        }
    }

    pub fn cell(&self, subject: usize, object: usize) -> RightSet {
        self.cells[NAMES * subject + object]
    }

    pub fn cell_mut(&mut self, subject: usize, object: usize) -> &mut RightSet {
        &mut self.cells[NAMES * subject + object]
    }

    /// The names that exist, in order.
    pub fn names(&self) -> Vec<usize> {
        (0..NAMES)
            .filter(|&name| self.kinds[name] != Kind::Absent)
            .collect()
    }

    pub fn subjects(&self) -> Vec<usize> {
        (0..NAMES)
            .filter(|&name| self.kinds[name] == Kind::Subject)
            .collect()
    }

    /// The matrix without some names, their rows and columns.
    pub fn without(&self, names: &[u8]) -> Matrix {
        let mut part = self.clone();
        for name in names.iter().map(|&name| usize::from(name)) {
            part.kinds[name] = Kind::Absent;
            for other in 0..NAMES {
                *part.cell_mut(name, other) = RightSet::default();
                *part.cell_mut(other, name) = RightSet::default();
            }
        }
        part
    }

    /// The cells that hold a right, row by row.
    pub fn holding(&self, right: usize) -> Vec<(usize, usize)> {
        let pairs = (0..NAMES).flat_map(|s| (0..NAMES).map(move |o| (s, o)));
        pairs.filter(|&(s, o)| self.cell(s, o).has(right)).collect()
    }
}

#[derive(Clone, Debug, PartialEq, Eq)]
pub struct House {
    /// The number of rights, g.
    pub rights: usize,
    pub carries: Carries,
    pub matrix: Matrix,
    pub rules: Vec<Rule>,
}
