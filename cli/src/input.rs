//! What a command works on: a house file or a table, read whole, and the words for what is in it.

use crate::failure::{told, Failure};
use crate::house::decode::decode;
use crate::house::encode::encode;
use crate::house::sections::same_rules;
use crate::house::House;
use crate::json::Json;
use crate::library;
use crate::table::readback::{differences, Difference};
use crate::table::source::MOST_BYTES;
use crate::table::{self, Table};
use crate::words::Words;
use std::ffi::OsStr;
use std::fs::File;
use std::io::{self, Read};
use std::path::Path;
use std::sync::atomic::{AtomicBool, Ordering};

/// A house file, or the file of a table.
pub struct Input {
    /// Its path, as it was given.
    pub path: String,
    pub is_table: bool,
    pub file: Vec<u8>,
    /// What it says, or the proved reader's refusal.
    pub content: Result<Content, u8>,
}

#[derive(Clone)]
pub struct Content {
    pub house: House,
    pub words: Words,
}

impl Content {
    /// The same without some names, their rows and columns.
    pub fn without(&self, names: &[u8]) -> Content {
        let mut part = self.clone();
        part.house.matrix = self.house.matrix.without(names);
        part
    }
}

/// How a path is called in messages.
pub fn shown(path: &OsStr) -> String {
    match path == "-" {
        true => "standard input".to_string(),
        false => Path::new(path).display().to_string(),
    }
}

/// Whether standard input was read.
static TAKEN: AtomicBool = AtomicBool::new(false);

/// All bytes of a house file or a table, or of standard input. Of one that is far too long, only more than either has.
pub fn bytes(path: &OsStr) -> Result<Vec<u8>, Failure> {
    up_to(path, MOST_BYTES as u64 + 16)
}

/// All bytes of a trace, however long it is: the last step counts as much as the first.
pub fn whole(path: &OsStr) -> Result<Vec<u8>, Failure> {
    up_to(path, u64::MAX)
}

fn up_to(path: &OsStr, most: u64) -> Result<Vec<u8>, Failure> {
    if path == "-" && TAKEN.swap(true, Ordering::Relaxed) {
        let advice = "give the path of one of the two";
        return Err(Failure::said(
            "standard input is one file, and is given twice",
            advice,
        ));
    }
    let mut bytes = Vec::new();
    let read = if path == "-" {
        io::stdin().lock().take(most).read_to_end(&mut bytes)
    } else {
        File::open(path).and_then(|file| file.take(most).read_to_end(&mut bytes))
    };
    match read {
        Ok(_) => Ok(bytes),
        Err(wrong) => Err(Failure::said(
            format!("{}: cannot be read: {}", shown(path), told(&wrong)),
            "give the path of a file that is there and that you may read",
        )),
    }
}

/// Reads a house file or a table. `names` is the table whose words a house file gets.
pub fn read(path: &OsStr, names: Option<&OsStr>) -> Result<Input, Failure> {
    let bytes = bytes(path)?;
    if !table::is_table(&bytes) {
        let content = content(&bytes, names)?;
        return Ok(Input {
            path: shown(path),
            is_table: false,
            file: bytes,
            content,
        });
    }
    if names.is_some() {
        return Err(Failure::said(
            format!("{}: a table has words of its own", shown(path)),
            "leave out --names",
        ));
    }
    let table = read_table(&bytes, path)?;
    let (file, refusal) = made(&table, path)?;
    let words = table.words;
    let house = table.house;
    Ok(Input {
        path: shown(path),
        is_table: true,
        file,
        content: match refusal {
            0 => Ok(Content { house, words }),
            refusal => Err(refusal),
        },
    })
}

/// What a house file says, with the words of a table if one is given.
pub fn content(file: &[u8], names: Option<&OsStr>) -> Result<Result<Content, u8>, Failure> {
    let refusal = library::check(file);
    if refusal != 0 {
        return Ok(Err(refusal));
    }
    let house = decode(file);
    let words = match names {
        None => Words::plain(&house),
        Some(path) => words_of(path, file)?,
    };
    Ok(Ok(Content { house, words }))
}

/// The words of a table for a file, which must have the same number of rights, carries and rules.
fn words_of(path: &OsStr, file: &[u8]) -> Result<Words, Failure> {
    let table = read_table(&bytes(path)?, path)?;
    let (made, refusal) = made(&table, path)?;
    if refusal != 0 || !same_rules(&made, file) {
        return Err(Failure::said(
            format!("{}: the rights, what they carry or the rules are not those of the file", shown(path)),
            "another table's words would make a right verdict a wrong one: give the table that the file was made of, or leave out --names",
        ));
    }
    Ok(table.words)
}

/// A table, or its mistake.
pub fn read_table(bytes: &[u8], path: &OsStr) -> Result<Table, Failure> {
    table::read(bytes).map_err(|mistake| Failure::Table(shown(path), mistake))
}

/// The file of a table and the proved reader's refusal of it, or 0. A file that does not say what the table says goes nowhere.
pub fn made(table: &Table, path: &OsStr) -> Result<(Vec<u8>, u8), Failure> {
    let file = encode(&table.house);
    let refusal = library::check(&file);
    if refusal == 0 {
        faithful(&differences(&table.statements, &file), path)?;
    }
    Ok((file, refusal))
}

/// Whether a file read back says what its table said.
pub fn faithful(differences: &[Difference], path: &OsStr) -> Result<(), Failure> {
    let Some(first) = differences.first() else {
        return Ok(());
    };
    let sentence = match first {
        Difference::TableOnly(said) => format!("the table says, and the file does not: {said}"),
        Difference::FileOnly(said) => format!("the file says, and the table does not: {said}"),
    };
    Err(Failure::said(
        format!(
            "{}: the file read back is not the table's: {sentence}",
            shown(path)
        ),
        "nothing was written; this is a fault of the program: please report it with the table",
    ))
}

impl Input {
    pub fn json(&self) -> Json {
        let kind = if self.is_table { "table" } else { "file" };
        Json::Object(vec![
            ("path", self.path.clone().into()),
            ("kind", kind.into()),
        ])
    }
}
