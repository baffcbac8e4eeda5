//! The text of a table: UTF-8, its lines, and places in it.

use super::mistake::{Code, Flaw, Mistake};
use super::parser::VERSION;
use crate::limits::RIGHTS;

pub const BYTE_ORDER_MARK: &[u8] = b"\xEF\xBB\xBF";

/// No table needs more: 1,024 cells with twelve long words each are below it.
pub const MOST_BYTES: usize = 4 << 20;

/// A stretch of the text, in bytes from its start.
#[derive(Clone, Copy, Debug, PartialEq, Eq)]
pub struct Span {
    pub start: usize,
    pub end: usize,
}

impl Span {
    pub fn new(start: usize, end: usize) -> Span {
        Span { start, end }
    }

    /// From the beginning of this stretch to the end of another.
    pub fn to(self, other: Span) -> Span {
        Span::new(self.start, other.end)
    }
}

pub struct Source {
    pub text: String,
    /// Where each line begins and ends, without its line end.
    lines: Vec<Span>,
}

impl Source {
    /// The text of these bytes, without a byte order mark.
    pub fn new(bytes: &[u8]) -> Result<Source, Box<Mistake>> {
        let bytes = bytes.strip_prefix(BYTE_ORDER_MARK).unwrap_or(bytes);
        if !bytes.starts_with(b"table") && !is_utf16(bytes) {
            return Err(Box::new(no_table(bytes)));
        }
        if bytes.len() > MOST_BYTES {
            let source = Source::of("");
            return Err(Box::new(too_long().placed(&source)));
        }
        let source = match std::str::from_utf8(bytes) {
            Ok(text) => Source::of(text),
            Err(wrong) => {
                let good = &bytes[..wrong.valid_up_to()];
                let source = Source::of(std::str::from_utf8(good).unwrap_or(""));
                return Err(Box::new(not_utf8(bytes, good.len()).placed(&source)));
            }
        };
        match unseen(&source.text) {
            Some(flaw) => Err(Box::new(flaw.placed(&source))),
            None => Ok(source),
        }
    }

    fn of(text: &str) -> Source {
        Source {
            text: text.to_string(),
            lines: lines(text),
        }
    }

    pub fn lines(&self) -> &[Span] {
        &self.lines
    }

    /// Line and column of a place, both from 1; a column is a character.
    pub fn line_and_column(&self, at: usize) -> (usize, usize) {
        let line = self.lines.partition_point(|line| line.start <= at);
        let start = self.lines[line - 1].start;
        (line, 1 + self.text[start..at].chars().count())
    }

    pub fn line(&self, line: usize) -> &str {
        let span = self.lines[line - 1];
        &self.text[span.start..span.end]
    }

    pub fn slice(&self, span: Span) -> &str {
        &self.text[span.start..span.end]
    }
}

/// The lines of a text with line ends of any system: LF, CR LF or CR.
fn lines(text: &str) -> Vec<Span> {
    let bytes = text.as_bytes();
    let mut lines = Vec::new();
    let mut start = 0;
    let mut at = 0;
    while at < bytes.len() {
        let length = match bytes[at] {
            b'\r' if bytes.get(at + 1) == Some(&b'\n') => 2,
            b'\r' | b'\n' => 1,
            _ => 0,
        };
        if length > 0 {
            lines.push(Span::new(start, at));
            start = at + length;
        }
        at += length.max(1);
    }
    lines.push(Span::new(start, bytes.len()));
    lines
}

fn is_utf16(bytes: &[u8]) -> bool {
    bytes.starts_with(b"\xFF\xFE") || bytes.starts_with(b"\xFE\xFF")
}

/// The first line is what tells a table from a house file or any other.
fn no_table(bytes: &[u8]) -> Mistake {
    let start = String::from_utf8_lossy(&bytes[..bytes.len().min(60)]);
    let source = Source::of(&start);
    let flaw = first_line(source.lines[0]);
    // A house file has zeros, and a text none, though it may begin with a line end or a tab.
    let rights = bytes.first().map_or(0, |&byte| usize::from(byte));
    let is_house = (1..=RIGHTS).contains(&rights) && bytes.contains(&0);
    match is_house {
        true => flaw.hint("this may be a house file: tugcaphi show prints it as a table"),
        false => flaw,
    }
    .placed(&source)
}

/// The mistake that the first line is another than it must be.
pub fn first_line(line: Span) -> Flaw {
    Flaw::new(Code::FirstLine, line)
        .found("the first line does not say that this is a table")
        .expected(format!("`table {VERSION}` as the first line"))
}

fn too_long() -> Flaw {
    Flaw::new(Code::TooLong, Span::new(0, 0))
        .found("a text far too long for a table")
        .expected(format!("at most {MOST_BYTES} bytes"))
}

fn not_utf8(bytes: &[u8], at: usize) -> Flaw {
    let flaw = Flaw::new(Code::NotUtf8, Span::new(at, at))
        .found(format!("byte {} is no UTF-8 text", bytes[at]))
        .expected("text in UTF-8");
    match is_utf16(bytes) {
        true => flaw.hint("this is UTF-16: save the table as UTF-8"),
        false => flaw,
    }
}

/// The first character that nobody can see, and that could make a line read otherwise than it is.
fn unseen(text: &str) -> Option<Flaw> {
    let (at, character) = text.char_indices().find(|&(_, c)| is_unseen(c))?;
    let span = Span::new(at, at + character.len_utf8());
    let code = u32::from(character);
    let flaw = Flaw::new(Code::Unseen, span)
        .found(format!("the character U+{code:04X} cannot be seen"))
        .expected("characters that can be seen, spaces, tabs and line ends");
    Some(flaw)
}

pub fn is_unseen(character: char) -> bool {
    match character {
        ' ' | '\t' | '\n' | '\r' => false,
        // Joiners, fillers, marks of direction, choices of form and tags: what Unicode calls default ignorable.
        '\u{AD}' | '\u{34F}' | '\u{61C}' | '\u{115F}'..='\u{1160}' | '\u{17B4}'..='\u{17B5}' => {
            true
        }
        '\u{180B}'..='\u{180F}' | '\u{200B}'..='\u{200F}' | '\u{202A}'..='\u{202E}' => true,
        '\u{2060}'..='\u{206F}' | '\u{3164}' | '\u{FE00}'..='\u{FE0F}' | '\u{FEFF}' => true,
        '\u{FFA0}' | '\u{FFF0}'..='\u{FFFB}' | '\u{1BCA0}'..='\u{1BCA3}' => true,
        '\u{1D173}'..='\u{1D17A}' | '\u{E0000}'..='\u{E0FFF}' => true,
        // A pattern of no dots, which looks like a space.
        '\u{2800}' => true,
        _ => character.is_control() || character.is_whitespace(),
    }
}
