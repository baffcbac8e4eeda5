//! The brute search: all states that runs over a small pool of names reach,
//! with destroys and creation anew; whether one of those runs leaks, and whether
//! one of those states holds the cells that a press needs.
//!
//! It knows nothing of the judge's argument. A refused rule run leaves the
//! state, so it adds no state and no leak; a leak that needs no name outside
//! the pool is found. What a spare blank gets is asked nowhere, so that one
//! number stands for all.

use crate::file::{Contents, Rule, Step};
use crate::machine::{AccessMatrix, Bounded, Kind};
use crate::need::Cell;
use std::collections::HashSet;
use std::hash::{BuildHasherDefault, Hasher};

pub const POOL: usize = 8;
pub const RIGHTS: usize = 3;

/// Bit i of `exists` and `subjects` is the pool's name i; bit 8s + o of
/// `cells[r]` is right r in the cell of the pool's names s and o.
#[derive(Clone, Copy, PartialEq, Eq, Hash, Debug)]
pub struct State {
    pub exists: u8,
    pub subjects: u8,
    pub cells: [u64; RIGHTS],
}

/// The row and the column of a pool name.
fn cross(name: usize) -> u64 {
    (0xFF << (8 * name)) | (0x0101_0101_0101_0101 << name)
}

impl State {
    pub fn start(matrix: &Bounded, pool: &[u64]) -> State {
        assert!(pool.len() <= POOL);
        let mut state = State {
            exists: 0,
            subjects: 0,
            cells: [0; RIGHTS],
        };
        for (i, &name) in pool.iter().enumerate() {
            match matrix.kind(name) {
                Kind::Absent => {}
                Kind::Object => state.exists |= 1 << i,
                Kind::Subject => {
                    state.exists |= 1 << i;
                    state.subjects |= 1 << i;
                }
            }
        }
        for (s, &subject) in pool.iter().enumerate() {
            for (o, &object) in pool.iter().enumerate() {
                for right in 0..RIGHTS {
                    if matrix.cell(subject, object) >> right & 1 == 1 {
                        state.cells[right] |= 1 << (8 * s + o);
                    }
                }
            }
        }
        state
    }
}

/// Which right carries which, `[i][q]`: the file's relation and each right itself,
/// squared until chains through all rights are in it.
pub struct Carrying([[bool; RIGHTS]; RIGHTS]);

impl Carrying {
    pub fn of(contents: &Contents) -> Carrying {
        let in_file =
            |i: usize, q: usize| contents.carries.get(i).is_some_and(|set| set >> q & 1 == 1);
        let mut all = std::array::from_fn(|i| std::array::from_fn(|q| i == q || in_file(i, q)));
        for _ in 0..RIGHTS {
            let once: [[bool; RIGHTS]; RIGHTS] = all;
            let through = |i: usize, q: usize| (0..RIGHTS).any(|j| once[i][j] && once[j][q]);
            all = std::array::from_fn(|i| std::array::from_fn(|q| through(i, q)));
        }
        Carrying(all)
    }

    /// The cells that meet a condition on each right.
    pub fn met(&self, state: &State) -> [u64; RIGHTS] {
        std::array::from_fn(|q| {
            let carriers = (0..RIGHTS).filter(|&i| self.0[i][q]);
            carriers.fold(0, |cells, i| cells | state.cells[i])
        })
    }
}

#[derive(Clone, Copy)]
enum Operation {
    Enter(usize, u64),
    Delete(usize, u64),
    CreateSubject(usize),
    CreateObject(usize),
    Destroy(usize),
}

/// A rule of one step with its actuals: what the state must be, and the step.
/// With one step everything is asked of the same state.
pub struct Instance {
    exists: u8,
    subjects: u8,
    absent: u8,
    no_subjects: u8,
    cells: [u64; RIGHTS],
    operation: Operation,
}

pub enum Move {
    Refused,
    To(State),
    /// The right entered into a cell that lacked it, and the state after.
    Leak(usize, State),
}

impl Instance {
    /// `actuals` are positions in the pool; those of spare blanks are not read.
    pub fn new(rule: &Rule, actuals: &[usize]) -> Instance {
        assert!(rule.steps.len() == 1);
        let mut instance = Instance {
            exists: 0,
            subjects: 0,
            absent: 0,
            no_subjects: 0,
            cells: [0; RIGHTS],
            operation: Operation::Destroy(0),
        };
        for condition in &rule.conditions {
            let (s, o) = (actuals[condition.subject], actuals[condition.object]);
            instance.subjects |= 1 << s;
            instance.exists |= 1 << o;
            instance.cells[condition.right as usize] |= 1 << (8 * s + o);
        }
        match rule.steps[0] {
            Step::Enter {
                right,
                subject,
                object,
            } => {
                let (s, o) = (actuals[subject], actuals[object]);
                instance.subjects |= 1 << s;
                instance.exists |= 1 << o;
                instance.operation = Operation::Enter(right as usize, 1 << (8 * s + o));
            }
            Step::Delete {
                right,
                subject,
                object,
            } => {
                let (s, o) = (actuals[subject], actuals[object]);
                instance.subjects |= 1 << s;
                instance.exists |= 1 << o;
                instance.operation = Operation::Delete(right as usize, 1 << (8 * s + o));
            }
            Step::CreateSubject(blank) => {
                instance.absent |= 1 << actuals[blank];
                instance.operation = Operation::CreateSubject(actuals[blank]);
            }
            Step::CreateObject(blank) => {
                instance.absent |= 1 << actuals[blank];
                instance.operation = Operation::CreateObject(actuals[blank]);
            }
            Step::DestroySubject(blank) => {
                instance.subjects |= 1 << actuals[blank];
                instance.operation = Operation::Destroy(actuals[blank]);
            }
            Step::DestroyObject(blank) => {
                instance.exists |= 1 << actuals[blank];
                instance.no_subjects |= 1 << actuals[blank];
                instance.operation = Operation::Destroy(actuals[blank]);
            }
        }
        instance
    }

    /// `met`: the cells of the state that meet a condition on each right.
    pub fn run(&self, state: &State, met: &[u64; RIGHTS]) -> Move {
        if state.exists & self.exists != self.exists
            || state.subjects & self.subjects != self.subjects
            || state.exists & self.absent != 0
            || state.subjects & self.no_subjects != 0
        {
            return Move::Refused;
        }
        for right in 0..RIGHTS {
            if met[right] & self.cells[right] != self.cells[right] {
                return Move::Refused;
            }
        }
        let mut after = *state;
        match self.operation {
            Operation::Enter(right, cell) => {
                after.cells[right] |= cell;
                if state.cells[right] & cell == 0 {
                    return Move::Leak(right, after);
                }
            }
            Operation::Delete(right, cell) => after.cells[right] &= !cell,
            Operation::CreateSubject(name) => {
                after.exists |= 1 << name;
                after.subjects |= 1 << name;
                for cells in &mut after.cells {
                    *cells &= !cross(name);
                }
            }
            Operation::CreateObject(name) => {
                after.exists |= 1 << name;
                for cells in &mut after.cells {
                    *cells &= !cross(name);
                }
            }
            Operation::Destroy(name) => {
                after.exists &= !(1 << name);
                after.subjects &= !(1 << name);
                for cells in &mut after.cells {
                    *cells &= !cross(name);
                }
            }
        }
        Move::To(after)
    }
}

/// All actuals of all rules over a pool of this size, in the blanks that are
/// named.
pub fn instances(rules: &[Rule], pool: usize) -> Vec<Instance> {
    let mut all = Vec::new();
    for rule in rules {
        for code in 0..pool.pow(rule.named().count() as u32) {
            let mut rest = code;
            let mut actuals = [0; 4];
            for blank in rule.named() {
                actuals[blank] = rest % pool;
                rest /= pool;
            }
            all.push(Instance::new(rule, &actuals));
        }
    }
    all
}

#[derive(Clone, Copy, Debug, PartialEq, Eq)]
pub enum Found {
    Leak,
    /// Every reachable state was seen and no run leaks.
    NoLeak,
    /// More states than the limit: nothing is known.
    TooMany,
}

/// What a search found, and what it came by on its way.
pub struct Search {
    pub found: Found,
    pub states: usize,
    /// Rule runs refused.
    pub refused: u64,
    pub destroyed: bool,
    /// A name of the start was destroyed and created anew.
    pub recreated: bool,
}

/// The start's names, and `further` absent ones behind them.
fn pool(matrix: &Bounded, further: usize) -> Vec<u64> {
    let mut pool = matrix.names();
    pool.extend((0..32).filter(|&name| !matrix.exists(name)).take(further));
    pool
}

/// Searches over the start's names and `further` absent ones.
pub fn search(contents: &Contents, right: u8, further: usize, limit: usize) -> Search {
    assert!(contents.rights as usize <= RIGHTS);
    let matrix = &contents.matrix;
    let pool = pool(matrix, further);
    let instances = instances(&contents.rules, pool.len());
    let carrying = Carrying::of(contents);

    let start = State::start(matrix, &pool);
    let mut seen: HashSet<State, BuildHasherDefault<Mixer>> = HashSet::default();
    seen.insert(start);
    let mut waiting = vec![start];
    let mut search = Search {
        found: Found::NoLeak,
        states: 1,
        refused: 0,
        destroyed: false,
        recreated: false,
    };
    while let Some(state) = waiting.pop() {
        let met = carrying.met(&state);
        for instance in &instances {
            let after = match instance.run(&state, &met) {
                // The state stays, so a refused run adds none.
                Move::Refused => {
                    search.refused += 1;
                    continue;
                }
                Move::Leak(leaked, _) if leaked == right as usize => {
                    search.found = Found::Leak;
                    return search;
                }
                Move::Leak(_, after) => after,
                Move::To(after) => after,
            };
            search.destroyed |= state.exists & !after.exists != 0;
            search.recreated |= after.exists & !state.exists & start.exists != 0;
            if seen.insert(after) {
                search.states += 1;
                if search.states > limit {
                    search.found = Found::TooMany;
                    return search;
                }
                waiting.push(after);
            }
        }
    }
    search
}

/// With three further names if that can be exhausted, else with two; None if
/// neither can. Gives the number of further names too.
pub fn exhausted(contents: &Contents, right: u8, limit: usize) -> Option<(usize, Search)> {
    let search = |further| (further, search(contents, right, further, limit));
    let known = |(_, search): &(usize, Search)| search.found != Found::TooMany;
    [3, 2].into_iter().map(search).find(known)
}

/// Which runs are looked at: all, or those that destroy no name of the start.
#[derive(Clone, Copy, PartialEq, Eq)]
pub enum Runs {
    All,
    Keeping,
}

/// The states that runs reach.
pub struct Reached {
    pool: Vec<u64>,
    pub states: Vec<State>,
}

impl Reached {
    /// Over the start's names and `further` absent ones; None past the limit.
    pub fn from(contents: &Contents, runs: Runs, further: usize, limit: usize) -> Option<Reached> {
        assert!(contents.rights as usize <= RIGHTS);
        let pool = pool(&contents.matrix, further);
        let start = State::start(&contents.matrix, &pool);
        let mut instances = instances(&contents.rules, pool.len());
        // A name of the start that is never destroyed exists all along.
        let destroys = |instance: &Instance| match instance.operation {
            Operation::Destroy(name) => start.exists >> name & 1 == 1,
            _ => false,
        };
        instances.retain(|instance| runs == Runs::All || !destroys(instance));
        let carrying = Carrying::of(contents);
        let mut seen: HashSet<State, BuildHasherDefault<Mixer>> = HashSet::from_iter([start]);
        let mut states = vec![start];
        let mut at = 0;
        while let Some(&state) = states.get(at) {
            at += 1;
            let met = carrying.met(&state);
            for instance in &instances {
                let (Move::To(after) | Move::Leak(_, after)) = instance.run(&state, &met) else {
                    continue;
                };
                if seen.insert(after) {
                    states.push(after);
                }
            }
            if states.len() > limit {
                return None;
            }
        }
        Some(Reached { pool, states })
    }

    /// Whether some state holds all cells, which are of names of the start.
    pub fn some_holds(&self, cells: &[Cell]) -> bool {
        let place = |name: u8| {
            let found = self.pool.iter().position(|&one| one == u64::from(name));
            found.expect("a name of the start")
        };
        let mut wanted = [0; RIGHTS];
        for cell in cells {
            wanted[usize::from(cell.right)] |= 1 << (8 * place(cell.subject) + place(cell.name));
        }
        let holds = |state: &State| (0..RIGHTS).all(|r| state.cells[r] & wanted[r] == wanted[r]);
        self.states.iter().any(holds)
    }
}

/// A quick hash; the standard one takes most of the search's time.
#[derive(Default)]
pub struct Mixer {
    value: u64,
}

impl Hasher for Mixer {
    fn finish(&self) -> u64 {
        self.value ^ (self.value >> 29)
    }

    fn write(&mut self, bytes: &[u8]) {
        for &byte in bytes {
            self.write_u64(u64::from(byte));
        }
    }

    fn write_u64(&mut self, word: u64) {
        self.value = (self.value.rotate_left(23) ^ word).wrapping_mul(0x9E37_79B9_7F4A_7C15);
    }

    fn write_u8(&mut self, byte: u8) {
        self.write_u64(u64::from(byte));
    }

    fn write_usize(&mut self, word: usize) {
        self.write_u64(word as u64);
    }
}
