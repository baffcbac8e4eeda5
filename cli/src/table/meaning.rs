//! From words to numbers: what the statements of a table come to.

use super::mistake::{Code, Flaw};
use super::numbering::{numbers, Numbered};
use super::registry::{Registry, Sort};
use super::source::Span;
use super::syntax::{ConditionWords, Item, RuleSyntax, Statement, StepWords, Verb};
use super::word::Word;
use crate::house::carries::Carries;
use crate::house::{Condition, House, Kind, Matrix, Operation, Rule};
use crate::limits::{BLANKS, CONDITIONS, NAMES, RIGHTS, RULES, STEPS};
use crate::words::{RuleWords, Words};
use std::collections::BTreeMap;

const RIGHT: Numbered = Numbered {
    what: "right",
    limit: RIGHTS,
    gaps: false,
};
const NAME: Numbered = Numbered {
    what: "name",
    limit: NAMES,
    gaps: true,
};
const RULE: Numbered = Numbered {
    what: "rule",
    limit: RULES,
    gaps: false,
};

/// An item with its number; the kind is that of a name.
type Listed<'a> = (usize, &'a Item, Kind);

/// What a table says, in numbers, and its words for them.
pub fn resolve(statements: &[Statement]) -> Result<(House, Words), Flaw> {
    let mut registry = Registry::default();
    let rights = listed(statements, &mut registry, Sort::Right, &RIGHT)?;
    let names = listed(statements, &mut registry, Sort::Name, &NAME)?;
    let rules = listed(statements, &mut registry, Sort::Rule, &RULE)?;
    let carries = carries(statements, &registry, rights.len())?;

    let mut matrix = Matrix::empty();
    let mut name_words = std::array::from_fn(|_| None);
    for (number, item, kind) in names {
        matrix.kinds[number] = kind;
        name_words[number] = Some(item.word.text.clone());
    }
    let (rules, rule_words) = cells_and_rules(statements, &mut registry, &mut matrix, &rules)?;
    let house = House {
        rights: rights.len(),
        carries,
        matrix,
        rules,
    };
    let words = Words {
        plain: false,
        rights: in_order(&rights),
        names: name_words,
        rules: rule_words,
    };
    Ok((house, words))
}

/// Fills the cells, and gives the rules in the order of their numbers.
fn cells_and_rules(
    statements: &[Statement],
    registry: &mut Registry,
    matrix: &mut Matrix,
    rules: &[Listed],
) -> Result<(Vec<Rule>, Vec<RuleWords>), Flaw> {
    let mut numbers = rules.iter().map(|(number, ..)| *number);
    let mut resolved = BTreeMap::new();
    for statement in statements {
        match statement {
            Statement::Cell {
                subjects,
                objects,
                rights,
            } => cell(registry, matrix, (subjects, objects), rights)?,
            Statement::Rule(syntax) => {
                let number = numbers.next().expect("every rule is listed");
                resolved.insert(number, rule(registry, syntax)?);
            }
            _ => {}
        }
    }
    Ok(resolved.into_values().unzip())
}

/// The words of what is listed, by number.
fn in_order(listed: &[Listed]) -> Vec<String> {
    let words: BTreeMap<usize, String> = listed
        .iter()
        .map(|(number, item, _)| (*number, item.word.text.clone()))
        .collect();
    words.into_values().collect()
}

/// The items of one sort with their numbers, entered into the registry.
fn listed<'a>(
    statements: &'a [Statement],
    registry: &mut Registry,
    sort: Sort,
    numbered: &Numbered,
) -> Result<Vec<Listed<'a>>, Flaw> {
    let mut items = Vec::new();
    let mut kinds = Vec::new();
    for statement in statements {
        let (of, kind, some) = match statement {
            Statement::Rights(some) => (Sort::Right, Kind::Absent, some.as_slice()),
            Statement::Subjects(some) => (Sort::Name, Kind::Subject, some.as_slice()),
            Statement::Objects(some) => (Sort::Name, Kind::Object, some.as_slice()),
            Statement::Rule(rule) => (Sort::Rule, Kind::Absent, std::slice::from_ref(&rule.item)),
            Statement::Carries { .. } | Statement::Cell { .. } => continue,
        };
        if of == sort {
            items.extend(some);
            kinds.resize(items.len(), kind);
        }
    }
    let numbers = numbers(&items, numbered)?;
    let mut listed = Vec::new();
    for ((number, item), kind) in numbers.into_iter().zip(items).zip(kinds) {
        registry.enter(&item.word, sort, number)?;
        listed.push((number, item, kind));
    }
    Ok(listed)
}

/// What each right carries. One without a line carries nothing.
fn carries(statements: &[Statement], registry: &Registry, rights: usize) -> Result<Carries, Flaw> {
    let mut carries = Carries::none(rights);
    let mut lines: BTreeMap<usize, Span> = BTreeMap::new();
    for statement in statements {
        let Statement::Carries { right, carried } = statement else {
            continue;
        };
        let number = registry.find(right, Sort::Right)?;
        if let Some(earlier) = lines.insert(number, right.span) {
            return Err(Flaw::new(Code::CarriesTwice, right.span)
                .found(format!("a second line for what `{}` carries", right.text))
                .expected("one line for each right")
                .earlier(earlier, "the first one is there"));
        }
        for carried in each_once(registry, carried, "line")? {
            carries.said_mut(number).insert(carried);
        }
    }
    Ok(carries)
}

/// The numbers of rights that are listed in a cell or a line.
fn each_once(registry: &Registry, rights: &[Word], place: &str) -> Result<Vec<usize>, Flaw> {
    let mut numbers: Vec<usize> = Vec::new();
    for right in rights {
        let number = registry.find(right, Sort::Right)?;
        if numbers.contains(&number) {
            return Err(Flaw::new(Code::RightTwice, right.span)
                .found(format!("`{}` a second time in one {place}", right.text))
                .expected("each right once"));
        }
        numbers.push(number);
    }
    Ok(numbers)
}

fn cell(
    registry: &Registry,
    matrix: &mut Matrix,
    (subjects, objects): (&[Word], &[Word]),
    rights: &[Word],
) -> Result<(), Flaw> {
    let numbers = each_once(registry, rights, "cell")?;
    for subject in subjects {
        let row = registry.find(subject, Sort::Name)?;
        if matrix.kinds[row] != Kind::Subject {
            return Err(Flaw::new(Code::NotASubject, subject.span)
                .found(format!("`{}` is an object and has no row", subject.text))
                .expected("a subject as the first name of a cell"));
        }
        for object in objects {
            let column = registry.find(object, Sort::Name)?;
            let cell = matrix.cell_mut(row, column);
            if !cell.is_empty() {
                return Err(cell_twice(subject, object));
            }
            numbers.iter().for_each(|&right| cell.insert(right));
        }
    }
    Ok(())
}

fn cell_twice(subject: &Word, object: &Word) -> Flaw {
    Flaw::new(Code::CellTwice, subject.span.to(object.span))
        .found(format!(
            "the cell ({}, {}) a second time",
            subject.text, object.text
        ))
        .expected("each cell once")
}

fn rule(registry: &mut Registry, syntax: &RuleSyntax) -> Result<(Rule, RuleWords), Flaw> {
    let last = |words: &[Span]| words.last().copied().unwrap_or(syntax.item.word.span);
    let blank_spans: Vec<Span> = syntax.blanks.iter().map(|blank| blank.span).collect();
    let test_spans: Vec<Span> = syntax.conditions.iter().map(|c| c.right.span).collect();
    let step_spans: Vec<Span> = syntax.steps.iter().map(|step| step.first.span).collect();
    at_most(BLANKS, "blanks", syntax.blanks.len(), last(&blank_spans))?;
    at_most(
        CONDITIONS,
        "conditions",
        syntax.conditions.len(),
        last(&test_spans),
    )?;
    at_most(STEPS, "steps", syntax.steps.len(), last(&step_spans))?;
    registry.open(&syntax.blanks)?;
    let conditions = syntax.conditions.iter();
    let steps = syntax.steps.iter();
    let rule = Rule {
        blanks: syntax.blanks.len(),
        conditions: conditions
            .map(|words| condition(registry, words))
            .collect::<Result<_, _>>()?,
        steps: steps
            .map(|words| operation(registry, words))
            .collect::<Result<_, _>>()?,
    };
    let words = RuleWords {
        rule: syntax.item.word.text.clone(),
        blanks: syntax.blanks.iter().map(|b| b.text.clone()).collect(),
    };
    Ok((rule, words))
}

fn at_most(limit: usize, what: &str, count: usize, last: Span) -> Result<(), Flaw> {
    if count <= limit {
        return Ok(());
    }
    Err(Flaw::new(Code::TooMany, last)
        .found(format!("a rule with {count} {what}"))
        .expected(format!("at most {limit} {what}")))
}

fn condition(registry: &Registry, words: &ConditionWords) -> Result<Condition, Flaw> {
    Ok(Condition {
        right: registry.find(&words.right, Sort::Right)?,
        subject: registry.blank(&words.subject)?,
        object: registry.blank(&words.object)?,
    })
}

fn operation(registry: &Registry, words: &StepWords) -> Result<Operation, Flaw> {
    let first = registry.blank(&words.first)?;
    let (Some(right), Some(second)) = (&words.right, &words.second) else {
        return Ok(match words.verb {
            Verb::CreateSubject => Operation::CreateSubject(first),
            Verb::CreateObject => Operation::CreateObject(first),
            Verb::DestroySubject => Operation::DestroySubject(first),
            _ => Operation::DestroyObject(first),
        });
    };
    let right = registry.find(right, Sort::Right)?;
    let (subject, object) = (first, registry.blank(second)?);
    Ok(match words.verb {
        Verb::Enter => Operation::Enter {
            right,
            subject,
            object,
        },
        _ => Operation::Delete {
            right,
            subject,
            object,
        },
    })
}
