//! The proved judge's verdict on a right, with its steps told in words.

pub mod json;
pub mod text;

use crate::count::count;
use crate::failure::Failure;
use crate::house::House;
use crate::input::Content;
use crate::library::{self, Judgement};
use crate::limits::{BUFFER_BYTES, JUDGED_NAMES, SHEET_RIGHTS, STEP_BYTES};
use crate::machine::Held;
use crate::reasons;
use crate::story::{carry_out_all, leak, Done};
use crate::words::Words;

pub struct Verdict {
    pub right: u8,
    /// The names that are trusted, as they were given.
    pub without: Vec<u8>,
    /// The steps that the judge wrote, under safe too.
    pub trace: Vec<u8>,
    pub ruling: Ruling,
}

pub enum Ruling {
    /// With the cells that hold the right already, of the names that are not left out.
    Safe(Vec<(usize, usize)>),
    Unsafe(Leak),
    Refused(u8),
}

/// A way in which a right comes into a cell that lacks it.
pub struct Leak {
    pub steps: Vec<Done>,
    /// The right and the cell that it comes into.
    pub held: Held,
    /// Whether the cell held the right at the start.
    pub again: bool,
}

/// Asks the judge about rights of an accepted file, sheet by sheet, without the names that are trusted.
pub fn judge(
    file: &[u8],
    house: &House,
    rights: &[u8],
    without: &[u8],
) -> Result<Vec<Verdict>, Failure> {
    let mut verdicts = Vec::new();
    for sheet in rights.chunks(SHEET_RIGHTS) {
        let mut buffer = vec![0; BUFFER_BYTES * sheet.len()];
        let judgements = judged(file, sheet, without, &mut buffer);
        let parts = buffer.chunks_exact(BUFFER_BYTES);
        for ((&right, judgement), part) in sheet.iter().zip(judgements).zip(parts) {
            let trace = &part[..STEP_BYTES * judgement.steps() as usize];
            let ruling = match judgement {
                Judgement::Refused(refusal) => Ruling::Refused(refusal),
                Judgement::Safe(_) => {
                    let stays = house.matrix.without(without);
                    Ruling::Safe(stays.holding(usize::from(right)))
                }
                Judgement::Unsafe(_) => Ruling::Unsafe(told(file, house, right, trace)?),
            };
            verdicts.push(Verdict {
                right,
                without: without.to_vec(),
                trace: trace.to_vec(),
                ruling,
            });
        }
    }
    Ok(verdicts)
}

/// Each right on its part of the buffer. A sheet leaves no names out.
fn judged(file: &[u8], rights: &[u8], without: &[u8], buffer: &mut [u8]) -> Vec<Judgement> {
    if without.is_empty() {
        return library::sheet(file, rights, buffer);
    }
    let parts = buffer.chunks_exact_mut(BUFFER_BYTES);
    let ask = |(&right, part): (&u8, &mut [u8])| library::judge_part(file, right, without, part);
    rights.iter().zip(parts).map(ask).collect()
}

impl Verdict {
    /// The names that the verdict leaves out; none where it is refused.
    pub fn left_out(&self) -> &[u8] {
        match self.ruling {
            Ruling::Refused(_) => &[],
            _ => &self.without,
        }
    }

    /// What stands in the way of a verdict that is refused.
    pub fn why(&self, content: &Content) -> Option<String> {
        let Content { house, words } = content;
        match self.ruling {
            Ruling::Refused(42) => reasons::of_names(house, words, &self.without),
            Ruling::Refused(refusal) => obstacle(house, words, refusal),
            _ => None,
        }
    }
}

/// The names that verdicts of one question leave out; none where all are refused.
pub fn left_out(verdicts: &[Verdict]) -> &[u8] {
    let mut names = verdicts.iter().map(Verdict::left_out);
    names.find(|names| !names.is_empty()).unwrap_or_default()
}

/// The judge's steps, carried out one after the other on the whole file, whoever was left out.
fn told(file: &[u8], house: &House, right: u8, trace: &[u8]) -> Result<Leak, Failure> {
    let (steps, _) = carry_out_all(file, house, trace).ok_or_else(astray)?;
    let last = steps.last().map_or(&[][..], |last| &last.acts);
    let held = leak(last, usize::from(right)).ok_or_else(astray)?;
    Ok(Leak {
        again: house.matrix.cell(held.1, held.2).has(held.0),
        steps,
        held,
    })
}

/// The proofs exclude this; should it be seen all the same, nothing is told that was not carried out.
fn astray() -> Failure {
    Failure::said(
        "the judge's steps cannot be carried out",
        "this is a fault of the program: please report it with the file",
    )
}

/// What stands in the way of a verdict: for 22 the rules of several steps, for 23 the names.
pub fn obstacle(house: &House, words: &Words, refusal: u8) -> Option<String> {
    match refusal {
        21 => Some(format!(
            "the file has {}, from 0 on",
            count(house.rights, "right")
        )),
        22 => {
            let rules = long_rules(house).into_iter().map(|rule| {
                let steps = count(house.rules[rule].steps.len(), "step");
                format!("{} (rule {rule}) has {steps}", words.rule(rule))
            });
            Some(rules.collect::<Vec<String>>().join(", "))
        }
        23 => {
            let names = house.matrix.names().len();
            Some(format!(
                "{names} names exist; the judge takes {JUDGED_NAMES}"
            ))
        }
        _ => None,
    }
}

/// The rules of more than one step.
pub fn long_rules(house: &House) -> Vec<usize> {
    let long = |rule: &usize| house.rules[*rule].steps.len() > 1;
    (0..house.rules.len()).filter(long).collect()
}
