//! Words: which texts are one, which are the table's own, and how one is written.

use super::mistake::{Code, Flaw};
use super::source::Span;

pub const MOST_CHARACTERS: usize = 64;

/// The words of the table's own language; in quotes they are words like any other. `carries` is none of them, since
/// tables from before it was a statement may have it as a word: it begins a line, where no other word can stand.
pub const OWN: [&str; 17] = [
    "table", "rights", "subjects", "objects", "cell", "rule", "if", "and", "in", "enter", "into",
    "delete", "from", "create", "destroy", "subject", "object",
];

/// A word and where it stands.
#[derive(Clone, Debug)]
pub struct Word {
    pub text: String,
    pub span: Span,
}

/// What a word without quotes may go on with.
pub fn goes_on(character: char) -> bool {
    character.is_alphanumeric() || character == '_' || character == '-'
}

/// The place of a hyphen that does not stand between two letters, in bytes.
pub fn loose_hyphen(text: &str) -> Option<usize> {
    let characters: Vec<(usize, char)> = text.char_indices().collect();
    let letter = |at: Option<usize>| {
        let found = at.and_then(|at| characters.get(at));
        found.is_some_and(|(_, character)| character.is_alphabetic())
    };
    let loose = |at: usize| !letter(at.checked_sub(1)) || !letter(Some(at + 1));
    let hyphens = (0..characters.len()).filter(|&at| characters[at].1 == '-');
    hyphens
        .into_iter()
        .find(|&at| loose(at))
        .map(|at| characters[at].0)
}

/// An accent that is a character of its own, or the second or third part of a Korean letter: the same word could be
/// spelled in two ways.
pub fn is_accent(character: char) -> bool {
    matches!(character, '\u{300}'..='\u{36F}' | '\u{1AB0}'..='\u{1AFF}'
        | '\u{1DC0}'..='\u{1DFF}' | '\u{20D0}'..='\u{20FF}' | '\u{FE20}'..='\u{FE2F}'
        | '\u{3099}'..='\u{309A}' | '\u{1161}'..='\u{11FF}' | '\u{D7B0}'..='\u{D7FF}')
}

/// What is wrong with the text of a word, in quotes or not.
pub fn flaw_in(text: &str, span: Span) -> Option<Flaw> {
    if text.is_empty() {
        let flaw = Flaw::new(Code::EmptyWord, span).found("there is nothing in the quotes");
        return Some(flaw.expected("a word in the quotes"));
    }
    if text.trim() != text || text.contains("  ") || text.contains('\t') {
        let flaw = Flaw::new(Code::Spaces, span)
            .found(format!(
                "the spaces in {} cannot be told apart",
                quoted(text)
            ))
            .expected("single spaces, none at the beginning or the end");
        return Some(flaw);
    }
    if text.chars().any(is_accent) {
        return Some(loose_accent(span));
    }
    let length = text.chars().count();
    if length > MOST_CHARACTERS {
        let flaw = Flaw::new(Code::LongWord, span)
            .found(format!("a word of {length} characters"))
            .expected(format!("at most {MOST_CHARACTERS} characters"));
        return Some(flaw);
    }
    None
}

pub fn loose_accent(span: Span) -> Flaw {
    Flaw::new(Code::Accent, span)
        .found("an accent that is a character of its own")
        .expected("letter and accent as one character")
}

/// Whether a text is a word without quotes.
pub fn is_bare(text: &str) -> bool {
    text.starts_with(|first: char| first.is_alphabetic())
        && text.chars().all(goes_on)
        && loose_hyphen(text).is_none()
        && !OWN.contains(&text)
}

/// A word as a table has it: in quotes if it needs them.
pub fn written(text: &str) -> String {
    if is_bare(text) {
        text.to_string()
    } else {
        quoted(text)
    }
}

pub fn quoted(text: &str) -> String {
    format!("\"{}\"", text.replace('\\', "\\\\").replace('"', "\\\""))
}

/// The word that a quote was opened for, and what stands behind the closing one; None if there is none.
pub fn unquoted(rest: &str) -> Option<(String, &str)> {
    let mut text = String::new();
    let mut characters = rest.chars();
    loop {
        match characters.next()? {
            '"' => return Some((text, characters.as_str())),
            '\\' => text.push(characters.next()?),
            character => text.push(character),
        }
    }
}

/// The number that a text of digits alone spells.
pub fn digits(text: &str) -> Option<usize> {
    let all = !text.is_empty() && text.bytes().all(|byte| byte.is_ascii_digit());
    // Longer ones are no number of anything here.
    all.then(|| text.parse().unwrap_or(usize::MAX))
}

/// The word most like a given one, if any is like it at all.
pub fn nearest<'a>(text: &str, words: impl IntoIterator<Item = &'a str>) -> Option<&'a str> {
    let far = 1 + text.chars().count() / 4;
    let measured = words.into_iter().map(|word| (distance(text, word), word));
    let (least, word) = measured.min_by_key(|&(distance, _)| distance)?;
    let letters = |text: &str| text.replace(|c: char| c.is_ascii_digit(), "");
    // Another number is no slip of the pen that could be guessed.
    let numbered = letters(text) == letters(word);
    (least <= far && least < text.chars().count() && !numbered).then_some(word)
}

/// How many characters must be put in, left out, changed or swapped with the next one.
fn distance(one: &str, other: &str) -> usize {
    let one: Vec<char> = one.to_lowercase().chars().collect();
    let other: Vec<char> = other.to_lowercase().chars().collect();
    let mut rows = vec![vec![0; other.len() + 1]; one.len() + 1];
    for i in 0..=one.len() {
        for j in 0..=other.len() {
            if i == 0 || j == 0 {
                rows[i][j] = i + j;
                continue;
            }
            let changed = usize::from(one[i - 1] != other[j - 1]);
            let mut least = (rows[i - 1][j - 1] + changed)
                .min(rows[i - 1][j] + 1)
                .min(rows[i][j - 1] + 1);
            if i > 1 && j > 1 && one[i - 1] == other[j - 2] && one[i - 2] == other[j - 1] {
                least = least.min(rows[i - 2][j - 2] + 1);
            }
            rows[i][j] = least;
        }
    }
    rows[one.len()][other.len()]
}
