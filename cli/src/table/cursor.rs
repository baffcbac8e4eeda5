//! What a parser asks of the lexemes: is this one next, and what is wrong if it is not.

use super::lexer::{Lexeme, Lexer, Token};
use super::mistake::{Code, Flaw};
use super::source::{Source, Span};
use super::word::Word;

pub struct Cursor<'a> {
    source: &'a Source,
    lexer: Lexer<'a>,
    ahead: Option<Lexeme>,
}

impl<'a> Cursor<'a> {
    /// At the beginning of a statement, which is given by its lines.
    pub fn new(source: &'a Source, lines: &[Span]) -> Cursor<'a> {
        Cursor {
            source,
            lexer: Lexer::new(source, lines),
            ahead: None,
        }
    }

    /// The next lexeme, which stays the next one.
    pub fn peek(&mut self) -> Result<Lexeme, Flaw> {
        let lexeme = match self.ahead.take() {
            Some(lexeme) => lexeme,
            None => self.lexer.read()?,
        };
        self.ahead = Some(lexeme.clone());
        Ok(lexeme)
    }

    pub fn take(&mut self) -> Result<Lexeme, Flaw> {
        let lexeme = self.peek()?;
        self.ahead = None;
        Ok(lexeme)
    }

    /// How a lexeme stands in the text, for messages.
    fn text(&self, lexeme: &Lexeme) -> String {
        match lexeme.token {
            Token::End => "the end".to_string(),
            _ => format!("`{}`", self.source.slice(lexeme.span)),
        }
    }

    /// The word that comes next. `what` says which: "a right", "a name".
    pub fn word(&mut self, what: &str) -> Result<Word, Flaw> {
        let lexeme = self.peek()?;
        let found = self.text(&lexeme);
        match lexeme.token {
            Token::Word(text) => {
                self.ahead = None;
                Ok(Word {
                    text,
                    span: lexeme.span,
                })
            }
            Token::Own(own) => Err(Flaw::new(Code::Reserved, lexeme.span)
                .found(format!("{found} is a word of the table's own language"))
                .expected(what)
                .hint(format!("as a word of yours it stands in quotes: \"{own}\""))),
            Token::Number(_) | Token::Odd => Err(Flaw::new(Code::NoWord, lexeme.span)
                .found(format!("{found} is no word"))
                .expected(format!(
                    "{what}: a word begins with a letter or stands in quotes"
                ))),
            _ => Err(self.unexpected(&lexeme, what)),
        }
    }

    /// The mistake that something else stands where `expected` should.
    pub fn unexpected(&self, lexeme: &Lexeme, expected: &str) -> Flaw {
        let found = match lexeme.token {
            Token::End => "the line ends too soon".to_string(),
            _ => format!("{} does not belong here", self.text(lexeme)),
        };
        Flaw::new(Code::Syntax, lexeme.span)
            .found(found)
            .expected(expected)
    }

    /// Passes a mark, or tells that it is missing.
    pub fn mark(&mut self, mark: char) -> Result<Lexeme, Flaw> {
        let lexeme = self.peek()?;
        if lexeme.token != Token::Mark(mark) {
            return Err(self.unexpected(&lexeme, &format!("`{mark}`")));
        }
        self.take()
    }

    /// Passes a word of the table's own, or tells that it is missing.
    pub fn own(&mut self, own: &str) -> Result<Lexeme, Flaw> {
        let lexeme = self.peek()?;
        if !matches!(lexeme.token, Token::Own(found) if found == own) {
            return Err(self.unexpected(&lexeme, &format!("`{own}`")));
        }
        self.take()
    }

    pub fn number(&mut self) -> Result<(usize, Span), Flaw> {
        let lexeme = self.peek()?;
        let Token::Number(number) = lexeme.token else {
            return Err(self.unexpected(&lexeme, "a number"));
        };
        self.take()?;
        Ok((number, lexeme.span))
    }

    /// Passes the lexeme if it is this one.
    pub fn passes(&mut self, token: &Token) -> Result<bool, Flaw> {
        let is = self.peek()?.token == *token;
        if is {
            self.ahead = None;
        }
        Ok(is)
    }
}
