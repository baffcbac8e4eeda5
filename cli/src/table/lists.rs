//! Lists of words, ranges of words, and the numbers set for them.

use super::cursor::Cursor;
use super::lexer::Token;
use super::mistake::{Code, Flaw};
use super::source::Span;
use super::syntax::Item;
use super::word::Word;
use crate::limits::NAMES;

/// The items of a list, at least one, to the end of the statement.
pub fn items(cursor: &mut Cursor, what: &str) -> Result<Vec<Item>, Flaw> {
    let mut items = Vec::new();
    loop {
        let words = words(cursor, what)?;
        items.extend(numbered(cursor, words)?);
        if cursor.peek()?.token == Token::End {
            return Ok(items);
        }
    }
}

/// One item, which is no range.
pub fn item(cursor: &mut Cursor, what: &str) -> Result<Item, Flaw> {
    let word = cursor.word(what)?;
    let mut items = numbered(cursor, vec![word])?;
    Ok(items.remove(0))
}

/// Words with the numbers that are set for them.
fn numbered(cursor: &mut Cursor, words: Vec<Word>) -> Result<Vec<Item>, Flaw> {
    if !cursor.passes(&Token::Mark('='))? {
        let plain = |word| Item { word, number: None };
        return Ok(words.into_iter().map(plain).collect());
    }
    let (first, span) = cursor.number()?;
    let ranged = cursor.passes(&Token::Range)?;
    let (last, span) = if ranged {
        let (last, end) = cursor.number()?;
        (last, span.to(end))
    } else {
        (first, span)
    };
    let as_many = last >= first && last - first == words.len() - 1;
    if !as_many || ranged != (words.len() > 1) {
        return Err(wrong_numbers(first, words.len(), span));
    }
    let number = |(i, word)| Item {
        word,
        number: Some((first + i, span)),
    };
    Ok(words.into_iter().enumerate().map(number).collect())
}

fn wrong_numbers(first: usize, count: usize, span: Span) -> Flaw {
    let flaw = Flaw::new(Code::RangeNumbers, span);
    if count == 1 {
        return flaw
            .found("a range of numbers for one word")
            .expected("one number");
    }
    let last = first.saturating_add(count - 1);
    flaw.found(format!("these are no numbers for {count} words"))
        .expected(format!("a range of {count} numbers, as {first}..{last}"))
}

/// A word, or the words of a range.
pub fn words(cursor: &mut Cursor, what: &str) -> Result<Vec<Word>, Flaw> {
    let first = cursor.word(what)?;
    if !cursor.passes(&Token::Range)? {
        return Ok(vec![first]);
    }
    let last = cursor.word(&format!("{what} that ends the range"))?;
    range(&first, &last)
}

/// The words from one to another: the same letters, and numbers that go up.
fn range(first: &Word, last: &Word) -> Result<Vec<Word>, Flaw> {
    let span = first.span.to(last.span);
    let ((stem, low), (other, high)) = (split(&first.text), split(&last.text));
    let zeros = |digits: &str| digits.len() > 1 && digits.starts_with('0');
    let padded = zeros(low) || zeros(high);
    let (from, to) = (number(low), number(high));
    let found = if low.is_empty() || high.is_empty() || stem.is_empty() {
        "a range between words that do not end in a number".to_string()
    } else if stem != other {
        format!("a range from `{stem}` to `{other}`")
    } else if padded && low.len() != high.len() {
        format!("a range from {low} to {high}, one with zeros in front")
    } else if from >= to {
        let what = if from == to { "an empty" } else { "a reversed" };
        format!("{what} range, from {low} to {high}")
    } else if to - from >= NAMES {
        return Err(Flaw::new(Code::TooMany, span)
            .found(format!("a range of more than {NAMES} words"))
            .expected(format!("at most {NAMES}")));
    } else {
        let width = if padded { low.len() } else { 0 };
        let text = |n| format!("{stem}{n:0width$}");
        let word = |n| Word {
            text: text(n),
            span,
        };
        return Ok((from..=to).map(word).collect());
    };
    Err(Flaw::new(Code::Range, span)
        .found(found)
        .expected("a range as press1..press4: the same letters, then numbers that go up"))
}

/// A text and the digits that it ends with.
fn split(text: &str) -> (&str, &str) {
    let stem = text.trim_end_matches(|c: char| c.is_ascii_digit());
    text.split_at(stem.len())
}

/// Numbers too long to count with are all too many.
fn number(digits: &str) -> usize {
    digits.parse().unwrap_or(usize::MAX)
}
