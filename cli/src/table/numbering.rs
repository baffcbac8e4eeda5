//! The numbers of rights, names and rules: by the order of listing, or set.

use super::mistake::{Code, Flaw};
use super::syntax::Item;
use super::word::digits;
use std::collections::BTreeMap;

/// What is numbered, how many of it there may be, and whether a number may be left out.
pub struct Numbered {
    pub what: &'static str,
    pub limit: usize,
    pub gaps: bool,
}

/// The number of each item. Once one is set, every later one is set too: nobody has to guess how counting goes on.
pub fn numbers(items: &[&Item], kind: &Numbered) -> Result<Vec<usize>, Flaw> {
    let mut taken: BTreeMap<usize, &Item> = BTreeMap::new();
    let mut set: Option<&Item> = None;
    let mut numbers = Vec::new();
    for (place, &item) in items.iter().enumerate() {
        if place >= kind.limit {
            return Err(too_many(item, kind));
        }
        let number = match (item.number, set) {
            (Some((number, _)), _) => number,
            (None, None) => place,
            (None, Some(earlier)) => return Err(number_needed(item, earlier, kind)),
        };
        set = set.or(item.number.map(|_| item));
        within(number, item, kind)?;
        if let Some(earlier) = taken.insert(number, item) {
            return Err(number_twice(number, item, earlier, kind));
        }
        spelled(number, item, kind)?;
        numbers.push(number);
    }
    if !kind.gaps {
        without_gap(&taken, kind)?;
    }
    Ok(numbers)
}

fn too_many(item: &Item, kind: &Numbered) -> Flaw {
    Flaw::new(Code::TooMany, item.word.span)
        .found(format!("more than {} {}s", kind.limit, kind.what))
        .expected(format!("at most {} {}s", kind.limit, kind.what))
}

fn number_needed(item: &Item, earlier: &Item, kind: &Numbered) -> Flaw {
    let text = &item.word.text;
    Flaw::new(Code::NumberNeeded, item.word.span)
        .found(format!("`{text}` has no number"))
        .expected(format!(
            "a number for every {} after the first that has one",
            kind.what
        ))
        .earlier(
            earlier.word.span,
            format!("`{}` has one", earlier.word.text),
        )
}

fn within(number: usize, item: &Item, kind: &Numbered) -> Result<(), Flaw> {
    if number < kind.limit {
        return Ok(());
    }
    let span = item.number.map_or(item.word.span, |(_, span)| span);
    let found = match number {
        usize::MAX => "a number far too large".to_string(),
        _ => format!("{} {number}", kind.what),
    };
    Err(Flaw::new(Code::Number, span)
        .found(found)
        .expected(format!("a number from 0 to {}", kind.limit - 1)))
}

fn number_twice(number: usize, item: &Item, earlier: &Item, kind: &Numbered) -> Flaw {
    let span = item.number.map_or(item.word.span, |(_, span)| span);
    let what = format!("{} {number} is `{}`", kind.what, earlier.word.text);
    Flaw::new(Code::NumberTwice, span)
        .found(format!("{} {number} a second time", kind.what))
        .expected("a number that is free")
        .earlier(earlier.word.span, what)
}

/// A word of digits alone would be taken for a number, unless it is the number of its name.
fn spelled(number: usize, item: &Item, kind: &Numbered) -> Result<(), Flaw> {
    let text = &item.word.text;
    if digits(text).is_none() || (kind.gaps && *text == number.to_string()) {
        return Ok(());
    }
    Err(Flaw::new(Code::DigitWord, item.word.span)
        .found(format!("\"{text}\" would be {} {number}", kind.what))
        .expected("a word that nobody takes for a number"))
}

fn without_gap(taken: &BTreeMap<usize, &Item>, kind: &Numbered) -> Result<(), Flaw> {
    let gap = taken
        .iter()
        .enumerate()
        .find(|(i, (number, _))| i != *number);
    let Some((missing, (number, item))) = gap else {
        return Ok(());
    };
    let span = item.number.map_or(item.word.span, |(_, span)| span);
    Err(Flaw::new(Code::NumberMissing, span)
        .found(format!(
            "{} {number}, but no {} {missing}",
            kind.what, kind.what
        ))
        .expected(format!("{}s from 0 on without a gap", kind.what)))
}
