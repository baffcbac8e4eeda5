//! A mistake in a table: where it is, what was found, what was expected, and what to do.

use super::source::{is_unseen, Source, Span};
use crate::terminal::{width, Style};
use std::fmt::Write;

/// Every sort of mistake has a code, so that tests can demand each of them, and advice for when there is no better.
macro_rules! codes {
    ($($code:ident = $word:literal, $advice:literal;)*) => {
        #[derive(Clone, Copy, Debug, PartialEq, Eq)]
        pub enum Code { $($code,)* }

        impl Code {
            pub const ALL: &'static [Code] = &[$(Code::$code,)*];

            pub fn word(self) -> &'static str {
                match self { $(Code::$code => $word,)* }
            }

            fn advice(self) -> &'static str {
                match self { $(Code::$code => $advice,)* }
            }
        }
    };
}

codes! {
    TooLong = "text-too-long", "is this a table?";
    NotUtf8 = "not-utf8", "save the table as UTF-8 in your editor";
    Unseen = "unseen-character", "delete it, or type the line again";
    FirstLine = "first-line", "nothing, not even a comment or a space, stands before it";
    Version = "version", "a later table needs a later program";
    OpenQuote = "open-quote", "a word in quotes ends on its line; a quote within it is written \\\"";
    EmptyWord = "empty-word", "write the word, or leave the quotes out";
    Escape = "escape", "a backslash within quotes is written \\\\";
    Spaces = "spaces-in-word", "write one space between the parts of a word";
    LongWord = "long-word", "a shorter word reads better in the grid, too";
    Accent = "loose-accent", "type the letter again; two spellings of one word would look the same";
    Character = "character", "a word with other characters stands in quotes";
    Hyphen = "hyphen", "a range is written press1..press4";
    NoWord = "no-word", "numbers go by the order of listing; to set one, write Ada = 5; a range is press1..press4";
    Reserved = "reserved-word", "as a word of yours it stands in quotes";
    Statement = "no-statement", "docs/TABLES.md has every statement";
    Indented = "indented", "only a rule goes on in further lines, and these begin with a space";
    Order = "order", "a table has first its rights, then what they carry, then its names, then cells and rules";
    Syntax = "syntax", "docs/TABLES.md has the form of every statement";
    NoRights = "no-rights", "write a line like: rights own read print";
    UsedTwice = "used-twice", "give one of the two another word";
    NearlyTwice = "nearly-twice", "give one of the two another word";
    DigitWord = "digit-word", "put a letter before it; only a name may be called by its own number";
    TooMany = "too-many", "docs/TABLES.md tells how many of each there may be";
    Number = "number", "without a number they are counted in order of listing, from 0";
    NumberTwice = "number-twice", "without numbers they are counted in order of listing, from 0";
    NumberNeeded = "number-needed", "write the word, = and its number: nobody should have to guess how counting goes on";
    NumberMissing = "number-missing", "without numbers they are counted in order of listing, from 0";
    Range = "range", "words that are not numbered are listed one by one";
    RangeNumbers = "range-numbers", "a range of words takes a range of numbers: press1..press4 = 8..11";
    Unknown = "unknown-word", "list it above, or spell it as it is there";
    OtherKind = "other-kind", "a cell is a subject, a name and rights: cell (Ada, vermilion): own";
    NotASubject = "not-a-subject", "a cell is (subject, name): whose right it is comes first";
    CellTwice = "cell-twice", "put all rights of a cell into one line";
    RightTwice = "right-twice", "leave one of the two out";
    CarriesTwice = "carries-twice", "put all that a right carries into one line";
    BlankTwice = "blank-twice", "give each blank a word of its own; two blanks may get the same name in a run";
    BlankTaken = "blank-taken", "a rule speaks of blanks alone; who fills them is chosen at each run";
}

/// A mistake by its place in the text alone.
#[derive(Debug)]
pub struct Flaw(Box<Parts>);

#[derive(Debug)]
struct Parts {
    code: Code,
    span: Span,
    found: String,
    expected: String,
    hint: Option<String>,
    /// Another place that the mistake has to do with, and what is there.
    earlier: Option<(Span, String)>,
}

impl Flaw {
    pub fn new(code: Code, span: Span) -> Flaw {
        Flaw(Box::new(Parts {
            code,
            span,
            found: String::new(),
            expected: String::new(),
            hint: None,
            earlier: None,
        }))
    }

    pub fn found(mut self, found: impl Into<String>) -> Flaw {
        self.0.found = found.into();
        self
    }

    pub fn expected(mut self, expected: impl Into<String>) -> Flaw {
        self.0.expected = expected.into();
        self
    }

    pub fn hint(mut self, hint: impl Into<String>) -> Flaw {
        self.0.hint = Some(hint.into());
        self
    }

    /// A hint, if there is one to give.
    pub fn perhaps(mut self, hint: Option<String>) -> Flaw {
        self.0.hint = hint.or(self.0.hint);
        self
    }

    /// How the statement is written, where nothing closer is known.
    pub fn form(self, form: &str) -> Flaw {
        match (self.0.code, &self.0.hint) {
            (Code::Syntax, None) => self.hint(form),
            _ => self,
        }
    }

    pub fn earlier(mut self, span: Span, what: impl Into<String>) -> Flaw {
        self.0.earlier = Some((span, what.into()));
        self
    }

    /// The mistake with line, column and the line's text.
    pub fn placed(self, source: &Source) -> Mistake {
        let parts = *self.0;
        let (line, column) = source.line_and_column(parts.span.start);
        let text = source.line(line);
        let rest = text.chars().count() + 1 - column;
        let length = source.slice(parts.span).chars().count();
        let line_of = |span: Span| source.line_and_column(span.start).0;
        Mistake {
            code: parts.code,
            line,
            column,
            length: length.clamp(1, rest.max(1)),
            text: text.chars().map(seen).collect(),
            found: parts.found,
            expected: parts.expected,
            hint: parts.hint.unwrap_or(parts.code.advice().to_string()),
            earlier: parts.earlier.map(|(span, what)| (line_of(span), what)),
        }
    }
}

#[derive(Debug)]
pub struct Mistake {
    pub code: Code,
    /// From 1, as the column, which counts characters.
    pub line: usize,
    pub column: usize,
    length: usize,
    text: String,
    pub found: String,
    pub expected: String,
    pub hint: String,
    /// The line of another place and what is there.
    pub earlier: Option<(usize, String)>,
}

/// A character as it is shown: what cannot be seen must not change how the line looks.
fn seen(character: char) -> char {
    match character {
        '\t' => ' ',
        _ if is_unseen(character) => '·',
        _ => character,
    }
}

impl Mistake {
    /// The mistake as a reader sees it, with the line and a mark under the place.
    pub fn shown(&self, path: &str, style: Style) -> String {
        let number = self.line.to_string();
        let margin = " ".repeat(number.len());
        let before: String = self.text.chars().take(self.column - 1).collect();
        let marked: String = self.text.chars().skip(self.column - 1).collect();
        let marked: String = marked.chars().take(self.length).collect();
        let mut shown = String::new();
        let bar = style.faint("|");
        let _ = writeln!(shown, "{} {}", style.bad("error:"), self.found);
        let _ = writeln!(shown, "{margin}--> {path}:{}:{}", self.line, self.column);
        let _ = writeln!(shown, "{margin} {bar}");
        let _ = writeln!(shown, "{number} {bar} {}", self.text);
        let _ = writeln!(
            shown,
            "{margin} {bar} {}{} {}",
            " ".repeat(width(&before)),
            style.bad(&"^".repeat(width(&marked).max(1))),
            style.bad(&format!("expected {}", self.expected))
        );
        if let Some((line, what)) = &self.earlier {
            let _ = writeln!(shown, "{margin} = line {line}: {what}");
        }
        let _ = writeln!(shown, "{margin} = {} {}", style.good("hint:"), self.hint);
        shown
    }
}
