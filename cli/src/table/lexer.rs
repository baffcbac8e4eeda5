//! The words, numbers and marks of a statement, one at a time.

use super::mistake::{Code, Flaw};
use super::source::{Source, Span};
use super::word;

#[derive(Clone, Debug, PartialEq, Eq)]
pub enum Token {
    Word(String),
    /// A word of the table's own language.
    Own(&'static str),
    Number(usize),
    /// Begins with a digit and is no number.
    Odd,
    Mark(char),
    /// The two dots of a range.
    Range,
    /// The end of the statement.
    End,
}

#[derive(Clone, Debug)]
pub struct Lexeme {
    pub token: Token,
    pub span: Span,
}

pub struct Lexer<'a> {
    source: &'a Source,
    /// The lines of the statement that are still to be read.
    lines: Vec<Span>,
    at: usize,
}

const MARKS: &str = "(),:;=";

impl<'a> Lexer<'a> {
    /// Of a statement by its lines; there is at least one.
    pub fn new(source: &'a Source, lines: &[Span]) -> Lexer<'a> {
        let lines: Vec<Span> = lines.iter().rev().copied().collect();
        let at = lines.last().map_or(0, |line| line.start);
        Lexer { source, lines, at }
    }

    fn rest(&self) -> &'a str {
        let end = self.lines.last().map_or(self.at, |line| line.end);
        &self.source.text[self.at..end]
    }

    /// The next lexeme; at the end of the statement always its end.
    pub fn read(&mut self) -> Result<Lexeme, Flaw> {
        loop {
            let spaces = self.rest().len() - self.rest().trim_start().len();
            self.at += spaces;
            let ended = self.rest().is_empty() || self.rest().starts_with('#');
            if !ended {
                return self.lexeme();
            }
            if self.lines.len() < 2 {
                return Ok(self.taken(Token::End, 0));
            }
            self.lines.pop();
            self.at = self.lines.last().map_or(self.at, |line| line.start);
        }
    }

    fn taken(&mut self, token: Token, length: usize) -> Lexeme {
        let span = Span::new(self.at, self.at + length);
        self.at = span.end;
        Lexeme { token, span }
    }

    fn lexeme(&mut self) -> Result<Lexeme, Flaw> {
        let rest = self.rest();
        let first = rest.chars().next().expect("not empty");
        if MARKS.contains(first) {
            return Ok(self.taken(Token::Mark(first), 1));
        }
        if rest.starts_with("..") {
            return Ok(self.taken(Token::Range, 2));
        }
        let lexeme = match first {
            '"' => self.quoted()?,
            _ if first.is_ascii_digit() => self.number()?,
            _ if first.is_alphabetic() => self.bare()?,
            _ => return Err(self.strange(first)),
        };
        self.apart()?;
        Ok(lexeme)
    }

    fn bare(&mut self) -> Result<Lexeme, Flaw> {
        let rest = self.rest();
        let length = rest
            .find(|c| !word::goes_on(c) && !word::is_accent(c))
            .unwrap_or(rest.len());
        let text = &rest[..length];
        let span = Span::new(self.at, self.at + length);
        if let Some(own) = word::OWN.iter().find(|own| **own == text) {
            return Ok(self.taken(Token::Own(own), length));
        }
        if word::loose_hyphen(text).is_some() {
            return Err(Flaw::new(Code::Hyphen, span)
                .found(format!(
                    "`{text}` has a hyphen that is not between two letters"
                ))
                .expected("a word, or a range with two dots")
                .hint(format!(
                    "a range is written press1..press4; as one word write {}",
                    word::quoted(text)
                )));
        }
        match word::flaw_in(text, span) {
            Some(flaw) => Err(flaw),
            None => Ok(self.taken(Token::Word(text.to_string()), length)),
        }
    }

    fn number(&mut self) -> Result<Lexeme, Flaw> {
        let rest = self.rest();
        let length = rest.find(|c| !word::goes_on(c)).unwrap_or(rest.len());
        let text = &rest[..length];
        let span = Span::new(self.at, self.at + length);
        let Some(number) = word::digits(text) else {
            return Ok(self.taken(Token::Odd, length));
        };
        if text.len() > 1 && text.starts_with('0') {
            return Err(Flaw::new(Code::Number, span)
                .found(format!("the number {text} begins with 0"))
                .expected("a number without zeros in front"));
        }
        Ok(self.taken(Token::Number(number), length))
    }

    fn quoted(&mut self) -> Result<Lexeme, Flaw> {
        let rest = self.rest();
        let mut text = String::new();
        let mut characters = rest.char_indices().skip(1);
        while let Some((at, character)) = characters.next() {
            match character {
                '"' => {
                    let span = Span::new(self.at, self.at + at + 1);
                    return match word::flaw_in(&text, span) {
                        Some(flaw) => Err(flaw),
                        None => Ok(self.taken(Token::Word(text), at + 1)),
                    };
                }
                '\\' => match characters.next() {
                    Some((_, escaped @ ('"' | '\\'))) => text.push(escaped),
                    _ => return Err(self.bad_escape(at)),
                },
                _ => text.push(character),
            }
        }
        Err(
            Flaw::new(Code::OpenQuote, Span::new(self.at, self.at + rest.len()))
                .found("a quote that is not closed on its line")
                .expected("a closing \" before the end of the line"),
        )
    }

    fn bad_escape(&self, at: usize) -> Flaw {
        Flaw::new(Code::Escape, Span::new(self.at + at, self.at + at + 1))
            .found("a backslash before another character than \" or \\")
            .expected("\\\" for a quote or \\\\ for a backslash")
    }

    /// A word or number ends with a space, a mark, a range's dots or the line.
    fn apart(&self) -> Result<(), Flaw> {
        let rest = self.rest();
        match rest.chars().next() {
            None | Some(' ' | '\t') => Ok(()),
            Some(next) if MARKS.contains(next) || rest.starts_with("..") => Ok(()),
            Some('#') => Err(self
                .here(1, "`#` right after a word")
                .expected("a space before a comment")
                .hint("a word with # in it stands in quotes")),
            Some('"') => Err(self
                .here(1, "a quote right after a word")
                .expected("a space between two words")),
            Some(next) if next.is_alphanumeric() => Err(self
                .here(next.len_utf8(), "a word right after another")
                .expected("a space between two words")),
            Some(next) => Err(self.strange(next)),
        }
    }

    fn here(&self, length: usize, found: impl Into<String>) -> Flaw {
        Flaw::new(Code::Character, Span::new(self.at, self.at + length)).found(found)
    }

    /// A character that no lexeme begins with.
    fn strange(&self, character: char) -> Flaw {
        let span = Span::new(self.at, self.at + character.len_utf8());
        if word::is_accent(character) {
            return word::loose_accent(span);
        }
        let hint = match character {
            '“' | '”' | '„' | '«' | '»' | '\'' | '‘' | '’' => {
                "quotes are written \"so\""
            }
            '-' | '–' | '—' => "a range is written press1..press4",
            '.' => "a range has two dots; a word with a dot in it stands in quotes",
            '[' | ']' | '{' | '}' => "cells and blanks stand in ( )",
            _ => "a word with other characters stands in quotes",
        };
        self.here(
            character.len_utf8(),
            format!("`{character}` does not belong here"),
        )
        .expected("a word, a number or one of ( ) , : ; = ..")
        .hint(hint)
    }
}
