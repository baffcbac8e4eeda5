//! Comparing an answer to what a press needs with the reference's, and its steps
//! with what document 02 demands of them.

use crate::file::{self, Contents};
use crate::machine::{run, AccessMatrix, Bounded, Unbounded};
use crate::need::{all_held, cells, need, Account, Cell, HELD, NEVER};
use crate::random::Random;
use crate::replay::rule_runs;
use crate::report::{hex, Group};
use crate::rounds::{most_steps, Listing, Rounds};
use crate::written::{nothing, Written};

/// What is under test: the answer, and the rule run that its steps must pass.
#[derive(Clone, Copy)]
pub struct Library {
    /// File, list of cells and buffer to the answer and the number of steps.
    pub need: fn(&[u8], &[u8], &mut [u8]) -> (u8, u64),
    /// A rule run on a lent file.
    pub run: fn(&mut [u8], u8, [u8; 4]) -> u8,
}

/// What is asked: a file and a list of cells.
#[derive(Clone, Copy)]
pub struct Question<'a> {
    file: &'a [u8],
    list: &'a [u8],
}

impl Question<'_> {
    pub fn new<'a>(file: &'a [u8], list: &'a [u8]) -> Question<'a> {
        Question { file, list }
    }

    fn shown(&self) -> String {
        format!("cells {:?}, {}", self.list, hex(self.file))
    }
}

/// Calls what is under test; file and list must keep their bytes. Demands of the
/// steps what can be told without the rounds. The reference has no part.
pub fn call(
    group: &mut Group,
    under_test: Library,
    random: &mut Random,
    question: Question,
    buffer: &mut [u8],
) -> (u8, u64) {
    let (file, list) = (question.file.to_vec(), question.list.to_vec());
    let before = buffer.to_vec();
    let (code, steps) = (under_test.need)(question.file, question.list, buffer);
    group.demand(file == question.file && list == question.list, || {
        format!("file or list changed: {}", question.shown())
    });
    let said = match code {
        HELD | NEVER => stands(under_test, random, question, (code, steps), &before, buffer),
        _ => nothing(steps, &before, buffer),
    };
    group.demand(said.is_ok(), || {
        format!(
            "{said:?}: answer {code}, {steps} steps, {}",
            question.shown()
        )
    });
    (code, steps)
}

/// Whether the steps keep the bound and leave the bytes behind them, can all be
/// done, and come to the cells as the answer says.
fn stands(
    under_test: Library,
    random: &mut Random,
    question: Question,
    (code, steps): (u8, u64),
    before: &[u8],
    buffer: &[u8],
) -> Result<(), String> {
    let Written {
        contents,
        trace,
        numbered,
    } = Written::new(random, question.file, steps, before, buffer)?;
    let cells = cells(question.list);
    if !cells.iter().all(|cell| cell.there(&contents)) {
        return Err("answered of a cell that is not there".to_string());
    }
    let start = Unbounded::start(&contents.matrix);
    let held = fronts(&start, &contents, trace, |matrix| all_held(&cells, matrix))?;
    let wanted: Vec<bool> = (0..=steps).map(|n| code == HELD && n == steps).collect();
    if held != wanted {
        return Err(format!("all cells are held after the fronts {held:?}"));
    }
    for trace in [trace, numbered.as_slice()] {
        done_on_file(under_test, question.file, trace, &cells, code == HELD)?;
    }
    Ok(())
}

/// What holds of the matrix at the start and after each step.
fn fronts<M: AccessMatrix, T>(
    start: &M,
    contents: &Contents,
    trace: &[u8],
    of: impl Fn(&M) -> T,
) -> Result<Vec<T>, String> {
    let mut state = start.clone();
    let mut all = vec![of(&state)];
    for (rule, actuals) in rule_runs(trace) {
        let done = run(&state, &contents.rules, rule, actuals);
        let done = done.map_err(|refusal| format!("step {} refused {refusal}", all.len() - 1))?;
        state = done.after;
        all.push(of(&state));
    }
    Ok(all)
}

/// The library's own rule runs do every step, and the file holds what it should.
fn done_on_file(
    under_test: Library,
    file: &[u8],
    trace: &[u8],
    cells: &[Cell],
    held: bool,
) -> Result<(), String> {
    let mut file = file.to_vec();
    for step in trace.chunks_exact(5) {
        let code = (under_test.run)(&mut file, step[0], [step[1], step[2], step[3], step[4]]);
        if code != 0 {
            return Err(format!("the library refuses {step:?} with {code}"));
        }
    }
    let after = file::read(&file).map_err(|refusal| format!("then a file of {refusal}"))?;
    match all_held(cells, &after.matrix) == held {
        true => Ok(()),
        false => Err("the library's rule runs lead elsewhere".to_string()),
    }
}

/// One input: the same answer, number and bytes as the reference.
pub fn compare(
    group: &mut Group,
    under_test: Library,
    random: &mut Random,
    question: Question,
    length: usize,
) -> Account {
    let mut given = random.bytes(length);
    let mut wanted = given.clone();
    let account = need(question.file, question.list, &mut wanted);
    let answer = call(group, under_test, random, question, &mut given);
    group.input(
        answer == (account.code, account.steps) && given == wanted,
        || {
            let first = given.iter().zip(&wanted).position(|(g, w)| g != w);
            format!(
                "answer {answer:?}, reference {account:?}, first different byte {first:?} of {length}, {}",
                question.shown()
            )
        },
    );
    account
}

/// All steps of the rounds as if nothing ended them, and the matrices at the
/// start and behind each step.
pub struct Course {
    pub trace: Vec<u8>,
    matrices: Vec<Bounded>,
    /// Whether each step is of a rule with spare blanks.
    spare: Vec<bool>,
}

impl Course {
    pub fn of(contents: &Contents) -> Course {
        let mut trace = vec![0; 5 * most_steps(contents)];
        let mut listing = Listing::new(&contents.rules, &mut trace);
        Rounds::run(contents, &[], &mut listing, |_| false);
        let end = 5 * listing.steps as usize;
        trace.truncate(end);
        let spare = |step: &[u8]| !contents.rules[step[0] as usize].spare.is_empty();
        let matrices = fronts(&contents.matrix, contents, &trace, Bounded::clone);
        Course {
            spare: trace.chunks_exact(5).map(spare).collect(),
            matrices: matrices.expect("steps that can be done"),
            trace,
        }
    }

    /// The matrix that they end with.
    pub fn last(&self) -> &Bounded {
        &self.matrices[self.matrices.len() - 1]
    }

    /// The shortest front after which all cells are held, or never.
    pub fn answer(&self, cells: &[Cell]) -> Account {
        let first = self.matrices.iter().position(|one| all_held(cells, one));
        let steps = first.unwrap_or(self.spare.len());
        Account {
            code: if first.is_some() { HELD } else { NEVER },
            steps: steps as u64,
            spare: self.spare[..steps].iter().filter(|spare| **spare).count() as u64,
        }
    }
}
