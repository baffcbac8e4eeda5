//! Comparing a judge with the reference judge, and its steps with what
//! document 01 demands of them; of the part that stays without trusted names
//! (document 02, C-15) too.

use crate::file;
use crate::judge::{judge_trying, Account, SAFE, UNSAFE};
use crate::machine::write_matrix;
use crate::random::Random;
use crate::replay::{play_unbounded, Outcome, LEAK};
use crate::report::{hex, Group};
use crate::rounds::{most_steps, Tried};
use crate::written::{nothing, Written};

/// What is asked: a right of a file, without the names that are trusted.
#[derive(Clone, Copy)]
pub struct Question<'a> {
    pub file: &'a [u8],
    pub right: u8,
    pub trusted: &'a [u8],
}

impl<'a> Question<'a> {
    /// Of the whole file.
    pub fn new(file: &'a [u8], right: u8) -> Question<'a> {
        Question {
            file,
            right,
            trusted: &[],
        }
    }

    pub fn without(self, trusted: &'a [u8]) -> Question<'a> {
        Question { trusted, ..self }
    }

    pub fn shown(&self) -> String {
        let (right, trusted) = (self.right, self.trusted);
        format!("right {right} without {trusted:?}, {}", hex(self.file))
    }
}

/// What is under test: the judge, and the replay that its steps must pass.
#[derive(Clone, Copy)]
pub struct Library {
    /// To the answer and the number of steps.
    pub judge: fn(Question, &mut [u8]) -> (u8, u64),
    /// File, trace and right to the answer and the step.
    pub replay: fn(&[u8], &[u8], u8) -> (u8, u64),
}

/// The length that 24 lets just pass, for an accepted file.
pub fn needed(file: &[u8]) -> usize {
    5 * most_steps(&file::read(file).expect("an accepted file"))
}

/// The file of the part that stays, for an accepted file and names of it.
pub fn part(file: &[u8], trusted: &[u8]) -> Vec<u8> {
    let whole = file::read(file).expect("an accepted file").matrix;
    let mut part = file.to_vec();
    write_matrix(&mut part, &whole.without(trusted));
    part
}

/// Calls the judge under test; file and list must keep their bytes. Demands of
/// the steps what can be told without the rounds. The reference judge has no
/// part.
fn call(
    group: &mut Group,
    under_test: Library,
    random: &mut Random,
    question: Question,
    buffer: &mut [u8],
) -> (u8, u64) {
    let (file, trusted) = (question.file.to_vec(), question.trusted.to_vec());
    let before = buffer.to_vec();
    let (code, steps) = (under_test.judge)(question, buffer);
    let kept = file == question.file && trusted == question.trusted;
    group.demand(kept, || {
        format!("file or list changed: {}", question.shown())
    });
    let said = match code {
        SAFE | UNSAFE => stands(under_test, random, question, (code, steps), &before, buffer),
        _ => nothing(steps, &before, buffer),
    };
    group.demand(said.is_ok(), || {
        let end = buffer.len().min(5 * steps.min(2_000) as usize);
        format!(
            "{said:?}: answer {code}, steps {}, {}",
            hex(&buffer[..end]),
            question.shown()
        )
    });
    (code, steps)
}

/// Whether the steps keep the bound, have 0 in spare blanks, leave the bytes
/// behind them, and leak where they must and nowhere else: on the whole, and on
/// the part as a start of its own.
fn stands(
    under_test: Library,
    random: &mut Random,
    question: Question,
    (code, steps): (u8, u64),
    before: &[u8],
    buffer: &[u8],
) -> Result<(), String> {
    let Question {
        file,
        right,
        trusted,
    } = question;
    let written = Written::new(random, file, steps, before, buffer)?;
    let leak = match code {
        SAFE => None,
        _ => Some(steps.checked_sub(1).ok_or("unsafe without a step")?),
    };
    replays(under_test, file, right, &written, leak).map_err(|wrong| format!("{wrong}, whole"))?;
    if trusted.is_empty() {
        return Ok(());
    }
    if trusted.iter().any(|&name| name > 31) {
        return Err("answered without a name above 31".to_string());
    }
    let part = part(file, trusted);
    replays(under_test, &part, right, &written, leak).map_err(|wrong| format!("{wrong}, part"))
}

/// Whether the steps leak at this one alone, or not at all: on the printer's
/// machine, and by the library's own replay, with other bytes in spare blanks
/// too.
fn replays(
    under_test: Library,
    file: &[u8],
    right: u8,
    written: &Written,
    leak: Option<u64>,
) -> Result<(), String> {
    let contents = file::read(file).expect("an accepted file");
    let outcome = play_unbounded(&contents, written.trace, right);
    if outcome != leak.map_or(Outcome::NoLeak, Outcome::Leak) {
        return Err(format!("the steps replay as {outcome:?}"));
    }
    let wanted = leak.map_or((0, 0), |step| (LEAK, step));
    let sooner = written.trace.len().saturating_sub(5);
    for (trace, wanted) in [
        (written.trace, wanted),
        (&written.trace[..sooner], (0, 0)),
        (written.numbered.as_slice(), wanted),
    ] {
        let replayed = (under_test.replay)(file, trace, right);
        if replayed != wanted {
            return Err(format!("the library replays {trace:?} as {replayed:?}"));
        }
    }
    Ok(())
}

/// One input: the same answer, number and bytes as the reference judge.
/// Gives the reference's account and the answer of the judge under test.
pub fn compare(
    group: &mut Group,
    under_test: Library,
    random: &mut Random,
    question: Question,
    length: usize,
) -> (Account, u8) {
    compare_trying(Tried::All, group, under_test, random, question, length)
}

/// The same, where the reference judge tries these places in the rounds.
pub fn compare_trying(
    tried: Tried,
    group: &mut Group,
    under_test: Library,
    random: &mut Random,
    question: Question,
    length: usize,
) -> (Account, u8) {
    let Question {
        file,
        right,
        trusted,
    } = question;
    let mut given = random.bytes(length);
    let mut wanted = given.clone();
    let account = judge_trying(tried, file, right, trusted, &mut wanted);
    let answer = call(group, under_test, random, question, &mut given);
    group.input(
        answer == (account.code, account.steps) && given == wanted,
        || {
            let first = given.iter().zip(&wanted).position(|(g, w)| g != w);
            format!(
                "answer {answer:?}, reference {account:?}, first different byte {first:?} of {length}, {}",
                question.shown()
            )
        },
    );
    (account, answer.0)
}
