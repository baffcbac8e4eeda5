//! A table as text, from which the same file is made again.

use super::parser::VERSION;
use super::syntax::Verb;
use super::word::{quoted, written};
use crate::house::{Condition, House, Kind, Operation, Rule};
use crate::limits::NAMES;
use crate::words::{RuleWords, Words};

/// A line longer than this is broken where the format lets it.
const LINE: usize = 100;

pub fn write(house: &House, words: &Words) -> String {
    let mut lines = vec![format!("table {VERSION}")];
    let rights: Vec<String> = words.rights.iter().map(|word| written(word)).collect();
    lines.extend(filled("rights  ", &rights));
    lines.extend(carries(house, words));
    lines.extend(names(house, words));
    lines.extend(absent(house, words));
    for subject in house.matrix.subjects() {
        for object in house.matrix.names() {
            let rights = house.matrix.cell(subject, object);
            if !rights.is_empty() {
                let rights: Vec<String> = rights.iter().map(|right| words.right(right)).collect();
                let (row, column) = (name(words, subject), name(words, object));
                lines.push(format!("cell ({row}, {column}): {}", rights.join(" ")));
            }
        }
    }
    for (rule, words_of) in house.rules.iter().zip(&words.rules) {
        lines.extend(rule_lines(rule, words_of, words));
    }
    lines.join("\n") + "\n"
}

/// A line for each right that carries some.
fn carries(house: &House, words: &Words) -> Vec<String> {
    let line = |right: usize| {
        let carried = house.carries.said(right).iter();
        let carried: Vec<String> = carried.map(|one| words.right(one)).collect();
        let some = !carried.is_empty();
        some.then(|| format!("carries  {}: {}", words.right(right), carried.join(", ")))
    };
    (0..house.rights).filter_map(line).collect()
}

/// A name as a table has it: one without a word stands in quotes by its number.
fn name(words: &Words, number: usize) -> String {
    match &words.names[number] {
        Some(word) => written(word),
        None => quoted(&number.to_string()),
    }
}

/// Subjects, then objects; from the first name on whose number is not its place in the list, numbers are set.
fn names(house: &House, words: &Words) -> Vec<String> {
    let mut set = false;
    let mut place = 0;
    let mut lines = Vec::new();
    for (begin, kind) in [("subjects", Kind::Subject), ("objects ", Kind::Object)] {
        let mut items = Vec::new();
        for number in (0..NAMES).filter(|&number| house.matrix.kinds[number] == kind) {
            set |= number != place;
            place += 1;
            let word = name(words, number);
            items.push(if set {
                format!("{word} = {number}")
            } else {
                word
            });
        }
        lines.extend(filled(begin, &items));
    }
    lines
}

/// A word whose name is not there at the moment is kept as a comment.
fn absent(house: &House, words: &Words) -> Vec<String> {
    if words.plain {
        return Vec::new();
    }
    let gone = |&number: &usize| house.matrix.kinds[number] == Kind::Absent;
    let items: Vec<String> = (0..NAMES)
        .filter(gone)
        .filter_map(|number| {
            Some(format!(
                "{} = {number}",
                written(words.names[number].as_ref()?)
            ))
        })
        .collect();
    filled("# not there at the moment:", &items)
}

/// Lists are broken into several statements of the same sort.
fn filled(begin: &str, items: &[String]) -> Vec<String> {
    let mut lines: Vec<String> = Vec::new();
    for item in items {
        match lines.last_mut() {
            Some(line) if line.chars().count() + 1 + item.chars().count() <= LINE => {
                line.push(' ');
                line.push_str(item);
            }
            _ => lines.push(format!("{begin} {item}")),
        }
    }
    lines
}

/// A rule in one line.
pub fn rule_line(rule: &Rule, rule_words: &RuleWords, words: &Words) -> String {
    let (head, conditions, steps) = rule_parts(rule, rule_words, words);
    let tests = match conditions.as_slice() {
        [] => String::new(),
        all => format!(" if {}", all.join(" and ")),
    };
    format!("{head}{tests} {}", steps.join("; "))
}

/// A rule in one line, or with conditions and steps in lines of their own.
fn rule_lines(rule: &Rule, rule_words: &RuleWords, words: &Words) -> Vec<String> {
    let line = rule_line(rule, rule_words, words);
    if line.chars().count() <= LINE {
        return vec![line];
    }
    let (head, conditions, steps) = rule_parts(rule, rule_words, words);
    let mut lines = vec![head];
    for (i, condition) in conditions.iter().enumerate() {
        let begin = if i == 0 { "if" } else { "and" };
        lines.push(format!("    {begin} {condition}"));
    }
    for (i, step) in steps.iter().enumerate() {
        let end = if i + 1 == steps.len() { "" } else { ";" };
        lines.push(format!("    {step}{end}"));
    }
    lines
}

/// What a rule begins with, its conditions and its steps.
fn rule_parts(
    rule: &Rule,
    rule_words: &RuleWords,
    words: &Words,
) -> (String, Vec<String>, Vec<String>) {
    let blanks: Vec<String> = rule_words.blanks.iter().map(|b| written(b)).collect();
    let head = format!(
        "rule {} ({}):",
        written(&rule_words.rule),
        blanks.join(", ")
    );
    let conditions = rule.conditions.iter();
    let steps = rule.steps.iter();
    (
        head,
        conditions.map(|c| condition(c, &blanks, words)).collect(),
        steps.map(|step| operation(step, &blanks, words)).collect(),
    )
}

pub fn condition(condition: &Condition, blanks: &[String], words: &Words) -> String {
    let right = words.right(condition.right);
    let (subject, object) = (&blanks[condition.subject], &blanks[condition.object]);
    format!("{right} in ({subject}, {object})")
}

pub fn operation(operation: &Operation, blanks: &[String], words: &Words) -> String {
    let verb = Verb::of(*operation).words();
    match *operation {
        Operation::Enter {
            right,
            subject,
            object,
        } => {
            let right = words.right(right);
            format!(
                "{verb} {right} into ({}, {})",
                blanks[subject], blanks[object]
            )
        }
        Operation::Delete {
            right,
            subject,
            object,
        } => {
            let right = words.right(right);
            format!(
                "{verb} {right} from ({}, {})",
                blanks[subject], blanks[object]
            )
        }
        Operation::CreateSubject(blank)
        | Operation::CreateObject(blank)
        | Operation::DestroySubject(blank)
        | Operation::DestroyObject(blank) => format!("{verb} {}", blanks[blank]),
    }
}
