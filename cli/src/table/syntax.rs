//! What the statements of a table say, in words.

use super::source::Span;
use super::word::Word;
use crate::house::Operation;

/// A right, name or rule that is listed, with its number if that is set.
#[derive(Clone, Debug)]
pub struct Item {
    pub word: Word,
    pub number: Option<(usize, Span)>,
}

#[derive(Clone, Debug)]
pub struct ConditionWords {
    pub right: Word,
    pub subject: Word,
    pub object: Word,
}

/// One of the six operations, with its words.
#[derive(Clone, Debug)]
pub struct StepWords {
    pub verb: Verb,
    /// Of an enter or a delete.
    pub right: Option<Word>,
    pub first: Word,
    /// Of an enter or a delete.
    pub second: Option<Word>,
}

#[derive(Clone, Copy, Debug, PartialEq, Eq)]
pub enum Verb {
    Enter,
    Delete,
    CreateSubject,
    CreateObject,
    DestroySubject,
    DestroyObject,
}

impl Verb {
    /// As it is written in a rule.
    pub fn words(self) -> &'static str {
        match self {
            Verb::Enter => "enter",
            Verb::Delete => "delete",
            Verb::CreateSubject => "create subject",
            Verb::CreateObject => "create object",
            Verb::DestroySubject => "destroy subject",
            Verb::DestroyObject => "destroy object",
        }
    }

    pub fn of(operation: Operation) -> Verb {
        match operation {
            Operation::Enter { .. } => Verb::Enter,
            Operation::Delete { .. } => Verb::Delete,
            Operation::CreateSubject(_) => Verb::CreateSubject,
            Operation::CreateObject(_) => Verb::CreateObject,
            Operation::DestroySubject(_) => Verb::DestroySubject,
            Operation::DestroyObject(_) => Verb::DestroyObject,
        }
    }
}

#[derive(Clone, Debug)]
pub struct RuleSyntax {
    pub item: Item,
    pub blanks: Vec<Word>,
    pub conditions: Vec<ConditionWords>,
    pub steps: Vec<StepWords>,
}

#[derive(Clone, Debug)]
pub enum Statement {
    Rights(Vec<Item>),
    Carries {
        right: Word,
        carried: Vec<Word>,
    },
    Subjects(Vec<Item>),
    Objects(Vec<Item>),
    Cell {
        subjects: Vec<Word>,
        objects: Vec<Word>,
        rights: Vec<Word>,
    },
    Rule(RuleSyntax),
}
