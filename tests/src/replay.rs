//! Replaying a trace: the first leaking step, no leak, or the first refusal.

use crate::file::{self, Contents, Rule};
use crate::machine::{run, AccessMatrix, Unbounded};

pub const LEAK: u8 = 255;

#[derive(Clone, Copy, Debug, PartialEq, Eq)]
pub enum Outcome {
    NoLeak,
    Leak(u64),
    Refused(u8, u64),
}

/// A rule run: the rule number and four actuals.
pub type RuleRun = (u64, [u64; 4]);

pub fn rule_runs(trace: &[u8]) -> Vec<RuleRun> {
    trace
        .chunks_exact(5)
        .map(|step| {
            let number = |i: usize| u64::from(step[i]);
            (number(0), [number(1), number(2), number(3), number(4)])
        })
        .collect()
}

/// Plays the list from `start` up to the first leak of `right` or refusal.
pub fn play<M: AccessMatrix>(start: &M, rules: &[Rule], list: &[RuleRun], right: u8) -> Outcome {
    let mut state = start.clone();
    for (position, &(rule, actuals)) in list.iter().enumerate() {
        match run(&state, rules, rule, actuals) {
            Err(refusal) => return Outcome::Refused(refusal, position as u64),
            Ok(done) if done.leaked >> right & 1 == 1 => return Outcome::Leak(position as u64),
            Ok(done) => state = done.after,
        }
    }
    Outcome::NoLeak
}

/// The answer as the verified library's `access_replay` gives it.
pub fn replay(file: &[u8], trace: &[u8], right: u8) -> (u8, u64) {
    let contents = match file::read(file) {
        Ok(contents) => contents,
        Err(refusal) => return (refusal, 0),
    };
    if right >= contents.rights {
        return (21, 0);
    }
    if !trace.len().is_multiple_of(5) {
        return (31, 0);
    }
    match play(&contents.matrix, &contents.rules, &rule_runs(trace), right) {
        Outcome::NoLeak => (0, 0),
        Outcome::Leak(step) => (LEAK, step),
        Outcome::Refused(refusal, step) => (refusal, step),
    }
}

/// The judge's steps on the printer's machine.
pub fn play_unbounded(contents: &Contents, trace: &[u8], right: u8) -> Outcome {
    let start = Unbounded::start(&contents.matrix);
    play(&start, &contents.rules, &rule_runs(trace), right)
}
