//! Verdicts for people.

use super::{left_out, Leak, Ruling, Verdict};
use crate::count::{all_of, count, one_of};
use crate::input::Content;
use crate::refusals;
use crate::story::{self, Done, Jobs};
use crate::terminal::{padded, width, Style};
use crate::words::Words;

/// The verdicts, one below the other, with the steps of those that are unsafe.
pub fn lines(content: &Content, verdicts: &[Verdict], style: Style) -> String {
    let rights = verdicts
        .iter()
        .map(|one| content.words.right(usize::from(one.right)));
    let rights: Vec<String> = rights.collect();
    let margin = rights.iter().map(|right| width(right)).max().unwrap_or(0);
    let mut text = match left_out(verdicts) {
        [] => String::new(),
        names => format!("{}\n", without(&content.words, names)),
    };
    for (verdict, right) in verdicts.iter().zip(&rights) {
        let word = match &verdict.ruling {
            Ruling::Safe(_) => style.good("SAFE   "),
            Ruling::Unsafe(_) => style.bad("UNSAFE "),
            Ruling::Refused(_) => style.warn("REFUSED"),
        };
        let right = padded(right, margin);
        text += &format!(
            "{}  {word}  {}\n",
            style.strong(&right),
            summary(content, verdict)
        );
        if let Ruling::Unsafe(leak) = &verdict.ruling {
            for line in steps(content, &leak.steps, Jobs::LeftOut) {
                text += &format!("  {line}\n");
            }
            text += &format!("  {}\n", outcome(&content.words, leak));
        }
    }
    text
}

/// What a verdict comes to, in one line.
pub fn summary(content: &Content, verdict: &Verdict) -> String {
    match &verdict.ruling {
        Ruling::Safe(cells) => {
            let never = "no run of the rules enters it into a cell that lacks it";
            match verdict.left_out() {
                [] => format!("{}; {never}", holders(cells.len(), "")),
                names => {
                    let holders = holders(cells.len(), " of the others");
                    let any = one_of(&words(&content.words, names));
                    format!("{holders}; {never}, as long as no rule is run with {any}")
                }
            }
        }
        Ruling::Unsafe(leak) => {
            let steps = count(leak.steps.len(), "step");
            format!("{steps}, one way of perhaps many:")
        }
        Ruling::Refused(refusal) => {
            let meaning = refusals::of(*refusal).meaning;
            let why = verdict.why(content);
            let why = why.map_or(String::new(), |why| format!(": {why}"));
            format!("{refusal}: {meaning}{why}")
        }
    }
}

/// Which names are left out.
pub fn without(words: &Words, names: &[u8]) -> String {
    let names = all_of(&self::words(words, names));
    format!("Left out, with row and column: {names}")
}

fn words(words: &Words, names: &[u8]) -> Vec<String> {
    let names = names.iter();
    names.map(|&name| words.name(usize::from(name))).collect()
}

fn holders(cells: usize, of: &str) -> String {
    match cells {
        0 => format!("no cell{of} holds it yet"),
        1 => format!("1 cell{of} holds it already"),
        n => format!("{n} cells{of} hold it already"),
    }
}

/// Steps, numbered from 1, each with what it did.
pub fn steps(content: &Content, steps: &[Done], jobs: Jobs) -> Vec<String> {
    let Content { house, words } = content;
    let calls: Vec<String> = steps
        .iter()
        .map(|done| story::call(words, &house.rules, done.step, jobs))
        .collect();
    let margin = calls.iter().map(|call| width(call)).max().unwrap_or(0);
    let digits = steps.len().to_string().len();
    let lines = steps.iter().zip(calls).enumerate();
    lines
        .map(|(i, (done, call))| {
            let number = format!("{:>digits$}", i + 1);
            format!(
                "{number}. {}  {}",
                padded(&call, margin),
                story::sentence(words, done)
            )
        })
        .collect()
}

/// Which right came into which cell.
pub fn outcome(words: &Words, leak: &Leak) -> String {
    let (right, subject, object) = leak.held;
    let (right, cell) = (words.right(right), words.cell(subject, object));
    match leak.again {
        true => format!("So {right} comes into {cell} again, after it was taken from there."),
        false => format!("So {right} comes into {cell}, which lacked it."),
    }
}
