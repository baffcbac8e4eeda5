//! Traces: steps of five bytes, or the lines that the desk program prints.

use crate::failure::Failure;
use crate::house::Rule;
use crate::limits::{BLANKS, NAMES, RULES, STEP_BYTES, UNUSED};

/// A rule run: a rule and its actuals, 255 from its number of blanks on.
#[derive(Clone, Copy, Debug, PartialEq, Eq)]
pub struct Step {
    pub rule: u8,
    pub actuals: [u8; BLANKS],
}

impl Step {
    pub fn bytes(self) -> [u8; STEP_BYTES] {
        let mut bytes = [self.rule; STEP_BYTES];
        bytes[1..].copy_from_slice(&self.actuals);
        bytes
    }

    /// Whether it could be done on some file, by its numbers alone. Every rule names a blank, and the others may be spare.
    pub fn possible(self) -> bool {
        let name = |&name: &u8| usize::from(name) < NAMES;
        usize::from(self.rule) < RULES && self.actuals.iter().any(name)
    }

    /// What its rule's blanks get, in order. Where a name is missing, without the positions behind the last one given.
    pub fn given(self, rules: &[Rule]) -> Vec<Given> {
        let rule = rules.get(usize::from(self.rule));
        let spare = rule.map_or(Vec::new(), Rule::spare);
        let named = |place: &usize| !spare.contains(place);
        let unused = |&name: &u8| name == UNUSED;
        let blanks = rule.map_or(0, |rule| rule.blanks);
        let whole = (0..blanks)
            .filter(named)
            .all(|blank| !unused(&self.actuals[blank]));
        let last = self.actuals.iter().rposition(|name| !unused(name));
        let end = last.map_or(0, |last| last + 1);
        let end = if whole { end.max(blanks) } else { end };
        let place = |place: usize| match named(&place) {
            true => Given::Name(usize::from(self.actuals[place])),
            false => Given::Job(self.actuals[place]),
        };
        (0..end).map(place).collect()
    }
}

/// What stands in a position of a step.
#[derive(Clone, Copy, Debug, PartialEq, Eq)]
pub enum Given {
    Name(usize),
    /// The number in a blank that no condition and no step of the rule names.
    Job(u8),
}

/// The whole steps of a trace.
pub fn steps(trace: &[u8]) -> Vec<Step> {
    let step = |bytes: &[u8]| {
        let mut actuals = [UNUSED; BLANKS];
        actuals.copy_from_slice(&bytes[1..]);
        Step {
            rule: bytes[0],
            actuals,
        }
    };
    trace.chunks_exact(STEP_BYTES).map(step).collect()
}

/// A trace as bytes, from bytes or from the desk program's lines.
pub fn read(bytes: Vec<u8>, path: &str) -> Result<Vec<u8>, Failure> {
    match text(&bytes) {
        Some(text) => lines(text, path),
        None => Ok(bytes),
    }
}

/// The text of a trace in lines. No rule has a number above 31, so no trace of bytes begins with a digit or a letter
/// unless its first step is refused.
fn text(bytes: &[u8]) -> Option<&str> {
    let begins = bytes.first().is_some_and(u8::is_ascii_alphanumeric);
    let readable = |byte: &u8| byte.is_ascii_graphic() || b" \r\n".contains(byte);
    let all = begins && bytes.iter().all(readable);
    all.then(|| std::str::from_utf8(bytes).unwrap_or(""))
}

/// `UNSAFE n` and n lines, or the lines alone: a rule and its names, single spaces between them.
fn lines(text: &str, path: &str) -> Result<Vec<u8>, Failure> {
    let mut lines: Vec<(usize, &str)> = text
        .lines()
        .enumerate()
        .map(|(i, line)| (i + 1, line))
        .collect();
    let counted = match lines.first().and_then(|(_, line)| line.split_once(' ')) {
        Some((verdict @ ("UNSAFE" | "SAFE" | "REFUSED"), count)) => {
            lines.remove(0);
            Some(told(verdict, count, path)?)
        }
        _ => None,
    };
    if counted.is_some_and(|counted| counted != lines.len()) {
        let message = format!("{path}: the first line tells of other steps than there are lines");
        return Err(Failure::said(
            message,
            "copy the desk program's answer whole",
        ));
    }
    let mut trace = Vec::new();
    for (number, line) in lines {
        trace.extend(step(line).map_err(|wrong| {
            Failure::said(
                format!("{path}:{number}: {wrong}"),
                "a line is a rule's number and 1 to 4 names by number, with single spaces: 0 0 1 3",
            )
        })?);
    }
    Ok(trace)
}

/// How many lines follow a first line of the desk program.
fn told(verdict: &str, count: &str, path: &str) -> Result<usize, Failure> {
    match (verdict, count.parse()) {
        // The steps of a safe answer are not printed.
        ("SAFE", Ok(_)) => Ok(0),
        ("UNSAFE", Ok(count)) => Ok(count),
        _ => Err(Failure::said(
            format!("{path}:1: no steps come with {verdict} {count}"),
            "give the desk program's answer UNSAFE n and its lines, or steps of 5 bytes",
        )),
    }
}

fn step(line: &str) -> Result<[u8; STEP_BYTES], String> {
    let mut bytes = [UNUSED; STEP_BYTES];
    let words: Vec<&str> = line.split(' ').collect();
    if !(2..=STEP_BYTES).contains(&words.len()) {
        return Err(format!("{} numbers in a line", words.len()));
    }
    for (byte, word) in bytes.iter_mut().zip(words) {
        let digits = !word.is_empty() && word.bytes().all(|b| b.is_ascii_digit());
        *byte = match word.parse() {
            Ok(number) if digits => number,
            _ => return Err(format!("`{word}` is no number from 0 to 255")),
        };
    }
    Ok(bytes)
}
