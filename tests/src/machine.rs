//! Running a rule on an access matrix: on the file's names 0 to 31, and on the
//! printer's machine, whose names are whole numbers without a bound.

use crate::file::{self, Condition, Contents, Rule, Set, Step, CELLS, NAMES, SET_BYTES};
use std::collections::BTreeMap;

#[derive(Clone, Copy, Debug, PartialEq, Eq)]
pub enum Kind {
    Absent,
    Object,
    Subject,
}

pub trait AccessMatrix: Clone {
    /// The highest number that is a name, if there is one.
    const HIGHEST: Option<u64>;

    fn kind(&self, name: u64) -> Kind;
    fn cell(&self, subject: u64, object: u64) -> Set;
    fn set_cell(&mut self, subject: u64, object: u64, rights: Set);
    /// The name exists from now on; its row and column are empty.
    fn create(&mut self, name: u64, kind: Kind);
    /// The name goes, with its row and column.
    fn destroy(&mut self, name: u64);

    fn exists(&self, name: u64) -> bool {
        self.kind(name) != Kind::Absent
    }

    fn is_subject(&self, name: u64) -> bool {
        self.kind(name) == Kind::Subject
    }
}

/// The matrix as the file has it.
#[derive(Clone, Debug, PartialEq, Eq)]
pub struct Bounded {
    pub kinds: [u8; NAMES],
    pub cells: [Set; CELLS],
}

impl Bounded {
    pub fn empty() -> Bounded {
        Bounded {
            kinds: [0; NAMES],
            cells: [0; CELLS],
        }
    }

    /// All that exist, subjects among them.
    pub fn names(&self) -> Vec<u64> {
        (0..NAMES as u64).filter(|&n| self.exists(n)).collect()
    }

    pub fn subjects(&self) -> Vec<u64> {
        (0..NAMES as u64).filter(|&n| self.is_subject(n)).collect()
    }

    /// The lowest name that is absent and none of these.
    pub fn lowest_absent(&self, reserved: &[u8]) -> Option<u64> {
        let reserved = |n: u64| reserved.iter().any(|&name| u64::from(name) == n);
        (0..NAMES as u64).find(|&n| !self.exists(n) && !reserved(n))
    }

    /// What stays without these names, their rows and columns.
    pub fn without(&self, names: &[u8]) -> Bounded {
        let mut part = self.clone();
        for &name in names {
            part.destroy(u64::from(name));
        }
        part
    }
}

impl AccessMatrix for Bounded {
    const HIGHEST: Option<u64> = Some(NAMES as u64 - 1);

    fn kind(&self, name: u64) -> Kind {
        match self.kinds[name as usize] {
            0 => Kind::Absent,
            1 => Kind::Object,
            2 => Kind::Subject,
            _ => unreachable!(),
        }
    }

    fn cell(&self, subject: u64, object: u64) -> Set {
        self.cells[32 * subject as usize + object as usize]
    }

    fn set_cell(&mut self, subject: u64, object: u64, rights: Set) {
        self.cells[32 * subject as usize + object as usize] = rights;
    }

    fn create(&mut self, name: u64, kind: Kind) {
        self.kinds[name as usize] = match kind {
            Kind::Object => 1,
            Kind::Subject => 2,
            Kind::Absent => unreachable!(),
        };
        for other in 0..NAMES as u64 {
            self.set_cell(name, other, 0);
            self.set_cell(other, name, 0);
        }
    }

    fn destroy(&mut self, name: u64) {
        self.kinds[name as usize] = 0;
        for other in 0..NAMES as u64 {
            self.set_cell(name, other, 0);
            self.set_cell(other, name, 0);
        }
    }
}

/// The printer's machine's state; what is in no map is absent, or empty.
#[derive(Clone, Debug, PartialEq, Eq)]
pub struct Unbounded {
    kinds: BTreeMap<u64, Kind>,
    cells: BTreeMap<(u64, u64), Set>,
}

impl Unbounded {
    pub fn start(matrix: &Bounded) -> Unbounded {
        let mut start = Unbounded {
            kinds: BTreeMap::new(),
            cells: BTreeMap::new(),
        };
        for name in matrix.names() {
            start.kinds.insert(name, matrix.kind(name));
        }
        for subject in matrix.subjects() {
            for object in matrix.names() {
                start.set_cell(subject, object, matrix.cell(subject, object));
            }
        }
        start
    }
}

impl AccessMatrix for Unbounded {
    const HIGHEST: Option<u64> = None;

    fn kind(&self, name: u64) -> Kind {
        self.kinds.get(&name).copied().unwrap_or(Kind::Absent)
    }

    fn cell(&self, subject: u64, object: u64) -> Set {
        self.cells.get(&(subject, object)).copied().unwrap_or(0)
    }

    fn set_cell(&mut self, subject: u64, object: u64, rights: Set) {
        if rights == 0 {
            self.cells.remove(&(subject, object));
        } else {
            self.cells.insert((subject, object), rights);
        }
    }

    fn create(&mut self, name: u64, kind: Kind) {
        self.cells.retain(|&(s, o), _| s != name && o != name);
        self.kinds.insert(name, kind);
    }

    fn destroy(&mut self, name: u64) {
        self.cells.retain(|&(s, o), _| s != name && o != name);
        self.kinds.remove(&name);
    }
}

/// What a rule carried out whole leaves.
pub struct Done<M> {
    pub after: M,
    /// Bit i: some step entered right i into a cell that lacked it.
    pub leaked: Set,
}

/// One rule run: the state after it, or its refusal 11, 12, 14 or 15.
pub fn run<M: AccessMatrix>(
    before: &M,
    rules: &[Rule],
    rule: u64,
    actuals: [u64; 4],
) -> Result<Done<M>, u8> {
    let Some(rule) = rules.get(rule as usize) else {
        return Err(11);
    };
    for (position, &actual) in actuals.iter().enumerate() {
        // A spare blank takes whatever it is given, and nothing reads it.
        if rule.spare.contains(&position) {
            continue;
        }
        let used = position < rule.blanks;
        if used && M::HIGHEST.is_some_and(|highest| actual > highest) {
            return Err(12);
        }
        if !used && actual != 255 {
            return Err(12);
        }
    }
    if !rule
        .conditions
        .iter()
        .all(|test| holds(before, test, actuals))
    {
        return Err(14);
    }

    let mut done = Done {
        after: before.clone(),
        leaked: 0,
    };
    for step in &rule.steps {
        // A step refused here drops `done`, and so the whole rule.
        operate(&mut done, step, actuals)?;
    }
    Ok(done)
}

/// Whether the condition holds of these actuals.
pub fn holds<M: AccessMatrix>(matrix: &M, condition: &Condition, actuals: [u64; 4]) -> bool {
    let subject = actuals[condition.subject];
    let object = actuals[condition.object];
    matrix.is_subject(subject)
        && matrix.exists(object)
        && matrix.cell(subject, object) & condition.carriers != 0
}

fn operate<M: AccessMatrix>(done: &mut Done<M>, step: &Step, actuals: [u64; 4]) -> Result<(), u8> {
    let matrix = &mut done.after;
    match *step {
        Step::Enter {
            right,
            subject,
            object,
        } => {
            let (s, o) = (actuals[subject], actuals[object]);
            if !matrix.is_subject(s) || !matrix.exists(o) {
                return Err(15);
            }
            let cell = matrix.cell(s, o);
            if cell >> right & 1 == 0 {
                done.leaked |= 1 << right;
            }
            matrix.set_cell(s, o, cell | 1 << right);
        }
        Step::Delete {
            right,
            subject,
            object,
        } => {
            let (s, o) = (actuals[subject], actuals[object]);
            if !matrix.is_subject(s) || !matrix.exists(o) {
                return Err(15);
            }
            let cell = matrix.cell(s, o);
            matrix.set_cell(s, o, cell & !(1 << right));
        }
        Step::CreateSubject(blank) => {
            if matrix.exists(actuals[blank]) {
                return Err(15);
            }
            matrix.create(actuals[blank], Kind::Subject);
        }
        Step::CreateObject(blank) => {
            if matrix.exists(actuals[blank]) {
                return Err(15);
            }
            matrix.create(actuals[blank], Kind::Object);
        }
        Step::DestroySubject(blank) => {
            if matrix.kind(actuals[blank]) != Kind::Subject {
                return Err(15);
            }
            matrix.destroy(actuals[blank]);
        }
        Step::DestroyObject(blank) => {
            if matrix.kind(actuals[blank]) != Kind::Object {
                return Err(15);
            }
            matrix.destroy(actuals[blank]);
        }
    }
    Ok(())
}

/// Four actuals given as bytes.
pub fn numbers(actuals: [u8; 4]) -> [u64; 4] {
    actuals.map(u64::from)
}

/// Writes the matrix into the kinds and cells of an accepted file.
pub fn write_matrix(file: &mut [u8], matrix: &Bounded) {
    let kinds = file::kinds_offset(file);
    file[kinds..kinds + NAMES].copy_from_slice(&matrix.kinds);
    let cells = &mut file[kinds + NAMES..][..SET_BYTES * CELLS];
    for (bytes, cell) in cells.chunks_exact_mut(SET_BYTES).zip(matrix.cells) {
        bytes.copy_from_slice(&[(cell % 256) as u8, (cell / 256) as u8]);
    }
}

/// A rule run on a lent file: 0, or the refusal with no byte changed.
pub fn run_file(file: &mut [u8], rule: u8, actuals: [u8; 4]) -> u8 {
    let Contents { matrix, rules, .. } = match file::read(file) {
        Ok(contents) => contents,
        Err(refusal) => return refusal,
    };
    match run(&matrix, &rules, u64::from(rule), numbers(actuals)) {
        Ok(done) => {
            write_matrix(file, &done.after);
            0
        }
        Err(refusal) => refusal,
    }
}
