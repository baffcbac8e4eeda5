//! Which word stands for what. A word is used once in a table, and no blank has the word of something else.

use super::mistake::{Code, Flaw};
use super::source::Span;
use super::word::{digits, nearest, written, Word};
use crate::count::one_of;
use std::collections::BTreeMap;

#[derive(Clone, Copy, Debug, PartialEq, Eq, PartialOrd, Ord)]
pub enum Sort {
    Right,
    Name,
    Rule,
}

impl Sort {
    fn noun(self) -> &'static str {
        match self {
            Sort::Right => "right",
            Sort::Name => "name",
            Sort::Rule => "rule",
        }
    }
}

struct Entry {
    sort: Sort,
    number: usize,
    span: Span,
}

#[derive(Default)]
pub struct Registry {
    words: BTreeMap<String, Entry>,
    /// Words of a sort in small letters, to tell words that differ in nothing else.
    small: BTreeMap<(Sort, String), Word>,
    /// The blanks of the rule that is being read.
    blanks: Vec<Word>,
}

impl Registry {
    /// Gives a word its meaning.
    pub fn enter(&mut self, word: &Word, sort: Sort, number: usize) -> Result<(), Flaw> {
        if let Some(earlier) = self.words.get(&word.text) {
            return Err(Flaw::new(Code::UsedTwice, word.span)
                .found(format!("the word `{}` a second time", word.text))
                .expected("a word that is not used yet")
                .earlier(earlier.span, format!("it is a {}", earlier.sort.noun())));
        }
        let key = (sort, word.text.to_lowercase());
        if let Some(earlier) = self.small.insert(key, word.clone()) {
            let noun = sort.noun();
            return Err(nearly(word, &earlier, noun)
                .expected(format!("{noun}s that nobody takes for each other")));
        }
        let entry = Entry {
            sort,
            number,
            span: word.span,
        };
        self.words.insert(word.text.clone(), entry);
        Ok(())
    }

    /// The number of a word of the given sort.
    pub fn find(&self, word: &Word, sort: Sort) -> Result<usize, Flaw> {
        match self.words.get(&word.text) {
            Some(entry) if entry.sort == sort => Ok(entry.number),
            Some(entry) => Err(self
                .wrong(Code::OtherKind, word, sort)
                .found(format!("`{}` is a {}", word.text, entry.sort.noun()))
                .earlier(entry.span, "it is listed there")),
            None => {
                let near = nearest(&word.text, self.of(sort));
                Err(self
                    .wrong(Code::Unknown, word, sort)
                    .found(format!("there is no {} `{}`", sort.noun(), word.text))
                    .perhaps(near.map(|near| format!("did you mean `{near}`?"))))
            }
        }
    }

    fn wrong(&self, code: Code, word: &Word, sort: Sort) -> Flaw {
        let noun = format!("a {}", sort.noun());
        Flaw::new(code, word.span).expected(expected(&noun, &self.of(sort)))
    }

    /// The words of a sort in the order of their numbers.
    fn of(&self, sort: Sort) -> Vec<&str> {
        let entries = self.words.iter().filter(|(_, entry)| entry.sort == sort);
        let mut words: Vec<_> = entries.map(|(word, entry)| (entry.number, word)).collect();
        words.sort();
        words.into_iter().map(|(_, word)| word.as_str()).collect()
    }

    /// Begins a rule with these blanks.
    pub fn open(&mut self, blanks: &[Word]) -> Result<(), Flaw> {
        self.blanks.clear();
        for blank in blanks {
            if let Some(earlier) = self.blanks.iter().find(|b| b.text == blank.text) {
                return Err(Flaw::new(Code::BlankTwice, blank.span)
                    .found(format!("the blank `{}` a second time", blank.text))
                    .expected("each blank once")
                    .earlier(earlier.span, "it is listed there"));
            }
            if let Some(entry) = self.words.get(&blank.text) {
                return Err(Flaw::new(Code::BlankTaken, blank.span)
                    .found(format!(
                        "a blank with the word of the {} `{}`",
                        entry.sort.noun(),
                        blank.text
                    ))
                    .expected("a blank with a word of its own")
                    .earlier(entry.span, "it is listed there"));
            }
            self.unlike(blank)?;
            self.blanks.push(blank.clone());
        }
        Ok(())
    }

    /// A blank that nobody takes for another blank of the rule, for a name or for a number.
    fn unlike(&self, blank: &Word) -> Result<(), Flaw> {
        let small = blank.text.to_lowercase();
        let blanks = self.blanks.iter().map(|blank| ("blank", blank));
        let named = self.small.get(&(Sort::Name, small.clone()));
        let others = blanks.chain(named.map(|name| ("name", name)));
        let like = |(_, other): &(&str, &Word)| other.text.to_lowercase() == small;
        if let Some((noun, other)) = others.into_iter().find(like) {
            return Err(nearly(blank, other, noun)
                .expected("blanks that nobody takes for each other or for a name"));
        }
        match digits(&blank.text) {
            None => Ok(()),
            Some(_) => Err(Flaw::new(Code::DigitWord, blank.span)
                .found(format!("\"{}\" as a blank", blank.text))
                .expected("a word that nobody takes for a number")),
        }
    }

    /// The number of a blank of the rule.
    pub fn blank(&self, word: &Word) -> Result<usize, Flaw> {
        let place = self.blanks.iter().position(|b| b.text == word.text);
        if let Some(place) = place {
            return Ok(place);
        }
        let known: Vec<&str> = self.blanks.iter().map(|b| b.text.as_str()).collect();
        let flaw = Flaw::new(Code::Unknown, word.span)
            .found(format!("the rule has no blank `{}`", word.text))
            .expected(expected("a blank of the rule", &known));
        match self.words.get(&word.text) {
            Some(entry) => Err(flaw
                .earlier(
                    entry.span,
                    format!("the {} `{}`", entry.sort.noun(), word.text),
                )
                .hint("a rule speaks of blanks alone; who fills them is chosen at each run")),
            None => Err(flaw.hint("blanks are listed after the rule's word: rule lend (a, b, f)")),
        }
    }
}

/// A word that differs in capitals alone from an earlier one.
fn nearly(word: &Word, earlier: &Word, noun: &str) -> Flaw {
    Flaw::new(Code::NearlyTwice, word.span)
        .found(format!(
            "`{}` differs from `{}` in capitals alone",
            word.text, earlier.text
        ))
        .earlier(earlier.span, format!("the {noun} `{}`", earlier.text))
}

/// What is expected: `a right: own or read`.
fn expected(noun: &str, words: &[&str]) -> String {
    let words: Vec<String> = words.iter().map(|word| written(word)).collect();
    match words.is_empty() {
        true => format!("{noun}, and there is none"),
        false => format!("{noun}: {}", one_of(&words)),
    }
}
