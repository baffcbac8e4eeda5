//! What a made file holds, compared with what the table said. Both are told as sentences, by ways that share nothing:
//! the table's from its statements, the file's from the bytes as `decode` reads them.

use super::syntax::{Item, RuleSyntax, Statement, StepWords, Verb};
use super::word::Word;
use crate::house::decode::decode;
use crate::house::{Kind, Operation, Rule};
use std::collections::{BTreeMap, BTreeSet};

/// A sentence that only one of table and file says.
#[derive(Debug, PartialEq, Eq)]
pub enum Difference {
    TableOnly(String),
    FileOnly(String),
}

/// Where a file, which the proved reader accepts, says something else than the statements.
pub fn differences(statements: &[Statement], file: &[u8]) -> Vec<Difference> {
    let table = table_says(statements);
    let file = file_says(statements, file);
    let missing = table.difference(&file).cloned().map(Difference::TableOnly);
    let added = file.difference(&table).cloned().map(Difference::FileOnly);
    missing.chain(added).collect()
}

/// What the statements say of one list: each word with its number.
fn listed<'a>(lists: impl Iterator<Item = &'a [Item]>) -> BTreeMap<usize, &'a str> {
    let mut words = BTreeMap::new();
    for item in lists.flatten() {
        let number = match item.number {
            Some((number, _)) => number,
            None => words.len(),
        };
        words.insert(number, item.word.text.as_str());
    }
    words
}

fn rights(statements: &[Statement]) -> BTreeMap<usize, &str> {
    listed(statements.iter().filter_map(|statement| match statement {
        Statement::Rights(items) => Some(items.as_slice()),
        _ => None,
    }))
}

fn names(statements: &[Statement]) -> BTreeMap<usize, &str> {
    listed(statements.iter().filter_map(|statement| match statement {
        Statement::Subjects(items) | Statement::Objects(items) => Some(items.as_slice()),
        _ => None,
    }))
}

fn rules(statements: &[Statement]) -> BTreeMap<usize, &str> {
    listed(statements.iter().filter_map(|statement| match statement {
        Statement::Rule(rule) => Some(std::slice::from_ref(&rule.item)),
        _ => None,
    }))
}

fn table_says(statements: &[Statement]) -> BTreeSet<String> {
    let mut said = BTreeSet::new();
    for (number, right) in rights(statements) {
        said.insert(format!("right {number} is {right}"));
    }
    let names = names(statements);
    let numbers: BTreeMap<&str, usize> = names.iter().map(|(n, word)| (*word, *n)).collect();
    let rules = rules(statements);
    let rule_numbers: BTreeMap<&str, usize> = rules.iter().map(|(n, word)| (*word, *n)).collect();
    for statement in statements {
        match statement {
            Statement::Rights(_) => {}
            Statement::Carries { right, carried } => {
                said.extend(carried.iter().map(|one| carries(&right.text, &one.text)));
            }
            Statement::Subjects(items) => said.extend(kinds(items, &numbers, "subject")),
            Statement::Objects(items) => said.extend(kinds(items, &numbers, "object")),
            Statement::Cell {
                subjects,
                objects,
                rights,
            } => said.extend(cells(subjects, objects, rights)),
            Statement::Rule(rule) => {
                let number = rule_numbers[rule.item.word.text.as_str()];
                said.extend(rule_says(number, rule));
            }
        }
    }
    said
}

fn kinds(items: &[Item], numbers: &BTreeMap<&str, usize>, kind: &str) -> Vec<String> {
    let sentence = |item: &Item| {
        let word = item.word.text.as_str();
        format!("name {} is the {kind} {word}", numbers[word])
    };
    items.iter().map(sentence).collect()
}

fn cells(subjects: &[Word], objects: &[Word], rights: &[Word]) -> Vec<String> {
    let mut said = Vec::new();
    for subject in subjects {
        for object in objects {
            for right in rights {
                said.push(cell(&subject.text, &object.text, &right.text));
            }
        }
    }
    said
}

fn carries(right: &str, carried: &str) -> String {
    format!("{right} carries {carried}")
}

fn cell(subject: &str, object: &str, right: &str) -> String {
    format!("the cell of {subject} and {object} holds {right}")
}

fn rule_says(number: usize, rule: &RuleSyntax) -> Vec<String> {
    let place = |word: &Word| {
        let blank = rule.blanks.iter().position(|b| b.text == word.text);
        blank.map_or(0, |blank| blank + 1)
    };
    let counts = [rule.blanks.len(), rule.conditions.len(), rule.steps.len()];
    let mut said = vec![head(number, &rule.item.word.text, counts)];
    for (i, condition) in rule.conditions.iter().enumerate() {
        let blanks = (place(&condition.subject), place(&condition.object));
        said.push(test(number, i, &condition.right.text, blanks));
    }
    for (i, words) in rule.steps.iter().enumerate() {
        let StepWords {
            verb,
            right,
            first,
            second,
        } = words;
        let right = right.as_ref().map(|right| right.text.as_str());
        let second = second.as_ref().map(place);
        said.push(step(number, i, verb.words(), right, (place(first), second)));
    }
    said
}

fn head(number: usize, word: &str, [blanks, conditions, steps]: [usize; 3]) -> String {
    format!(
        "rule {number} is {word}, with {blanks} blanks, {conditions} conditions and {steps} steps"
    )
}

fn test(rule: usize, place: usize, right: &str, (subject, object): (usize, usize)) -> String {
    format!(
        "condition {place} of rule {rule} is {right} in the cell of blanks {subject} and {object}"
    )
}

fn step(
    rule: usize,
    place: usize,
    verb: &str,
    right: Option<&str>,
    (first, second): (usize, Option<usize>),
) -> String {
    let right = right.unwrap_or("nothing");
    let second = second.unwrap_or(0);
    format!("step {place} of rule {rule} is {verb}, {right}, blanks {first} and {second}")
}

fn file_says(statements: &[Statement], file: &[u8]) -> BTreeSet<String> {
    let house = decode(file);
    let right_words = rights(statements);
    let name_words = names(statements);
    let right = |number: usize| right_words.get(&number).copied().unwrap_or("nothing");
    let name = |number: usize| name_words.get(&number).copied().unwrap_or("nobody");
    let mut said = BTreeSet::new();
    for number in 0..house.rights {
        said.insert(format!("right {number} is {}", right(number)));
        for carried in house.carries.said(number).iter() {
            said.insert(carries(right(number), right(carried)));
        }
    }
    for number in house.matrix.names() {
        let kind = match house.matrix.kinds[number] {
            Kind::Subject => "subject",
            _ => "object",
        };
        said.insert(format!("name {number} is the {kind} {}", name(number)));
    }
    for number in 0..house.rights {
        for (subject, object) in house.matrix.holding(number) {
            said.insert(cell(name(subject), name(object), right(number)));
        }
    }
    let rule_words = rules(statements);
    for (number, rule) in house.rules.iter().enumerate() {
        let word = rule_words.get(&number).copied().unwrap_or("nothing");
        said.extend(rule_holds(number, word, rule, &right_words));
    }
    said
}

fn rule_holds(
    number: usize,
    word: &str,
    rule: &Rule,
    rights: &BTreeMap<usize, &str>,
) -> Vec<String> {
    let name = |right: usize| rights.get(&right).copied().unwrap_or("nothing");
    let counts = [rule.blanks, rule.conditions.len(), rule.steps.len()];
    let mut said = vec![head(number, word, counts)];
    for (i, condition) in rule.conditions.iter().enumerate() {
        let blanks = (condition.subject + 1, condition.object + 1);
        said.push(test(number, i, name(condition.right), blanks));
    }
    for (i, operation) in rule.steps.iter().enumerate() {
        let verb = Verb::of(*operation).words();
        said.push(match *operation {
            Operation::Enter {
                right,
                subject,
                object,
            }
            | Operation::Delete {
                right,
                subject,
                object,
            } => step(
                number,
                i,
                verb,
                Some(name(right)),
                (subject + 1, Some(object + 1)),
            ),
            Operation::CreateSubject(blank)
            | Operation::CreateObject(blank)
            | Operation::DestroySubject(blank)
            | Operation::DestroyObject(blank) => step(number, i, verb, None, (blank + 1, None)),
        });
    }
    said
}
