//! The house file: its bytes are refused with 1 to 9 or 44, or give the contents.

use crate::carrying::carriers;
use crate::machine::Bounded;

pub const NAMES: usize = 32;
pub const CELLS: usize = 1024;
/// A file has at most so many rights (document 02, C-21).
pub const RIGHTS: u8 = 12;

/// A set of rights, a cell or what a right carries: bit i is right i.
pub type Set = u16;
/// In the file it has two bytes, low byte first.
pub const SET_BYTES: usize = 2;

/// Kinds, cells and carries come before the rules.
pub const FIXED_PAIRS: usize = 3;

/// A condition: a right that carries this one is in the cell of these two blanks.
#[derive(Clone, Copy, Debug, PartialEq, Eq)]
pub struct Condition {
    pub right: u8,
    /// The rights that carry it, itself among them.
    pub carriers: Set,
    pub subject: usize,
    pub object: usize,
}

/// A step, which is a primitive operation on blanks.
#[derive(Clone, Copy, Debug, PartialEq, Eq)]
pub enum Step {
    Enter {
        right: u8,
        subject: usize,
        object: usize,
    },
    Delete {
        right: u8,
        subject: usize,
        object: usize,
    },
    CreateSubject(usize),
    CreateObject(usize),
    DestroySubject(usize),
    DestroyObject(usize),
}

impl Step {
    /// The blanks that the step names.
    pub fn blanks(&self) -> Vec<usize> {
        match *self {
            Step::Enter {
                subject, object, ..
            }
            | Step::Delete {
                subject, object, ..
            } => vec![subject, object],
            Step::CreateSubject(blank)
            | Step::CreateObject(blank)
            | Step::DestroySubject(blank)
            | Step::DestroyObject(blank) => vec![blank],
        }
    }

    /// The blank that the step creates.
    pub fn created(&self) -> Option<usize> {
        match *self {
            Step::CreateSubject(blank) | Step::CreateObject(blank) => Some(blank),
            _ => None,
        }
    }
}

/// A rule, which is a command with `blanks` parameters.
#[derive(Clone, Debug, PartialEq, Eq)]
pub struct Rule {
    pub blanks: usize,
    pub conditions: Vec<Condition>,
    pub steps: Vec<Step>,
    /// The blanks that no condition and no step names; they take any number.
    pub spare: Vec<usize>,
}

impl Rule {
    /// The blanks that some condition or step names.
    pub fn named(&self) -> impl Iterator<Item = usize> + '_ {
        (0..self.blanks).filter(|blank| !self.spare.contains(blank))
    }
}

#[derive(Clone, Debug)]
pub struct Contents {
    /// The number of rights, g.
    pub rights: u8,
    pub matrix: Bounded,
    /// Entry i: the rights that right i carries, as the file has it.
    pub carries: Vec<Set>,
    pub rules: Vec<Rule>,
}

/// Where the cells section begins is fixed by the kinds before it, and theirs
/// by the number of pairs.
pub fn kinds_offset(file: &[u8]) -> usize {
    2 + 4 * file[1] as usize
}

fn low_byte_first(bytes: &[u8], at: usize) -> usize {
    bytes[at] as usize + 256 * bytes[at + 1] as usize
}

/// The sets of a section.
fn sets(section: &[u8]) -> Vec<Set> {
    let set = |bytes: &[u8]| Set::from(bytes[0]) + 256 * Set::from(bytes[1]);
    section.chunks_exact(SET_BYTES).map(set).collect()
}

/// The contents, or the first refusal in the order that document 01 gives, with
/// document 02's 44 between 7 and the rules.
pub fn read(bytes: &[u8]) -> Result<Contents, u8> {
    if !(2..=4096).contains(&bytes.len()) {
        return Err(1);
    }
    let rights = bytes[0];
    if !(1..=RIGHTS).contains(&rights) {
        return Err(2);
    }
    let pairs = bytes[1] as usize;
    if !(FIXED_PAIRS..=FIXED_PAIRS + 32).contains(&pairs) {
        return Err(3);
    }
    let table_end = 2 + 4 * pairs;
    if bytes.len() < table_end {
        return Err(1);
    }

    let mut sections = Vec::new();
    let mut end = table_end;
    for pair in 0..pairs {
        let offset = low_byte_first(bytes, 2 + 4 * pair);
        let length = low_byte_first(bytes, 4 + 4 * pair);
        if offset != end {
            return Err(4);
        }
        // usize: the sum is exact, so a table that wraps at 65,536 is refused.
        end = offset + length;
        sections.push((offset, end));
    }
    if end != bytes.len() {
        return Err(4);
    }
    let section = |pair: usize| &bytes[sections[pair].0..sections[pair].1];

    let kinds = section(0);
    let cells = section(1);
    let carries = section(2);
    if kinds.len() != NAMES
        || cells.len() != SET_BYTES * CELLS
        || carries.len() != SET_BYTES * rights as usize
    {
        return Err(5);
    }
    for &kind in kinds {
        if kind > 2 {
            return Err(6);
        }
    }
    let cells = sets(cells);
    for subject in 0..NAMES {
        for object in 0..NAMES {
            let cell = cells[32 * subject + object];
            // What is left of the cell without rights 0 to g - 1.
            if cell >> rights != 0 {
                return Err(7);
            }
            if cell != 0 && (kinds[subject] != 2 || kinds[object] == 0) {
                return Err(7);
            }
        }
    }

    let carries = sets(carries);
    for &carried in &carries {
        if carried >> rights != 0 {
            return Err(44);
        }
    }

    let carriers = carriers(&carries);
    let mut rules = Vec::new();
    for pair in FIXED_PAIRS..pairs {
        rules.push(read_rule(section(pair), &carriers)?);
    }

    let mut matrix = Bounded::empty();
    matrix.kinds.copy_from_slice(kinds);
    matrix.cells.copy_from_slice(&cells);
    Ok(Contents {
        rights,
        matrix,
        carries,
        rules,
    })
}

/// `carriers`: of each right of the file the rights that carry it.
fn read_rule(section: &[u8], carriers: &[Set]) -> Result<Rule, u8> {
    let rights = carriers.len() as u8;
    if section.len() < 3 {
        return Err(5);
    }
    let (k, c, m) = (section[0], section[1], section[2]);
    if !(1..=4).contains(&k) || c > 4 || !(1..=6).contains(&m) {
        return Err(8);
    }
    if section.len() != 3 + 3 * c as usize + 4 * m as usize {
        return Err(5);
    }

    let mut rest = &section[3..];
    let mut conditions = Vec::new();
    for _ in 0..c {
        let (right, subject, object) = (rest[0], rest[1], rest[2]);
        if right >= rights || subject >= k || object >= k {
            return Err(9);
        }
        conditions.push(Condition {
            right,
            carriers: carriers[right as usize],
            subject: subject as usize,
            object: object as usize,
        });
        rest = &rest[3..];
    }
    let mut steps = Vec::new();
    for _ in 0..m {
        let (kind, right, first, second) = (rest[0], rest[1], rest[2], rest[3]);
        if right >= rights || first >= k || second >= k {
            return Err(9);
        }
        if kind >= 3 && (right != 0 || second != 0) {
            return Err(9);
        }
        let (subject, object) = (first as usize, second as usize);
        steps.push(match kind {
            1 => Step::Enter {
                right,
                subject,
                object,
            },
            2 => Step::Delete {
                right,
                subject,
                object,
            },
            3 => Step::CreateSubject(subject),
            4 => Step::CreateObject(subject),
            5 => Step::DestroySubject(subject),
            6 => Step::DestroyObject(subject),
            _ => return Err(9),
        });
        rest = &rest[4..];
    }
    assert!(rest.is_empty());

    let mut spare: Vec<usize> = (0..k as usize).collect();
    for condition in &conditions {
        spare.retain(|&blank| blank != condition.subject && blank != condition.object);
    }
    for step in &steps {
        spare.retain(|blank| !step.blanks().contains(blank));
    }
    Ok(Rule {
        blanks: k as usize,
        conditions,
        steps,
        spare,
    })
}

/// 0 or the refusal, as the verified library's `access_check` gives it.
pub fn check(bytes: &[u8]) -> u8 {
    match read(bytes) {
        Ok(_) => 0,
        Err(refusal) => refusal,
    }
}
