//! Tables: the text format in which people write a matrix and its rules.

pub mod cursor;
pub mod lexer;
pub mod lists;
pub mod meaning;
pub mod mistake;
pub mod numbering;
pub mod parser;
pub mod readback;
pub mod registry;
pub mod rules;
pub mod source;
pub mod syntax;
pub mod word;
pub mod writer;

use crate::house::House;
use crate::words::Words;
use mistake::Mistake;
use source::Source;
use syntax::Statement;

/// A table that was read: what it says in words, and what that is in numbers.
#[derive(Debug)]
pub struct Table {
    pub statements: Vec<Statement>,
    pub house: House,
    pub words: Words,
}

/// Reads a table, or tells the first mistake in it.
pub fn read(bytes: &[u8]) -> Result<Table, Box<Mistake>> {
    let source = Source::new(bytes)?;
    let read = parser::parse(&source).and_then(|statements| {
        let (house, words) = meaning::resolve(&statements)?;
        Ok(Table {
            statements,
            house,
            words,
        })
    });
    read.map_err(|flaw| Box::new(flaw.placed(&source)))
}

/// The first line tells a table from a house file, whose first byte is the number of rights.
pub fn is_table(bytes: &[u8]) -> bool {
    let text = bytes.strip_prefix(source::BYTE_ORDER_MARK).unwrap_or(bytes);
    text.starts_with(b"table")
}
