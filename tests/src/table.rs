//! The desk program's inputs as text. An accepted file is a table, as
//! docs/TABLES.md has it, after a line with the right that is asked for, the
//! input's first byte:
//!
//! ```text
//! ask 1
//! table 1
//! rights r0 r1
//! ```
//!
//! The program's own reader reads it. Damaged inputs, `.damage`, have lines of
//! their own, of which nothing is checked but their form:
//!
//! ```text
//! ask 1                        the right
//! rights 2                     how many
//! subjects 0 1 4-6
//! objects 2
//! cell (0,2): 0                rights in a cell, 0 to 15; names may be stretches: (0-3,2)
//! carries 1: 0                 the rights that a right carries, 0 to 15
//! rule (a,b,c): if 0 in (a,c) and 1 in (a,b) enter 1 into (b,c)
//! kind 3: 7                    the kind of a name
//! rule bytes: 1 0 1 9          a rule's section
//! size kinds: 31               a section's bytes, cut or filled with 0, also `cells`, `carries`
//! byte 2: 11                   a byte of the file, by its offset
//! size file: 4097              the file cut or filled with 0
//! ```
//!
//! The steps of a rule stand with `;` between them, `#` begins a comment.
//! Without the line `ask` the input is empty.

use crate::file::Set;
use crate::generate::{
    joined, rule, Draft, CREATE_OBJECT, CREATE_SUBJECT, DELETE, DESTROY_OBJECT, DESTROY_SUBJECT,
    ENTER,
};
use std::str::FromStr;
use tugcaphi::house::encode::encode;

/// The input that a question and a table make.
pub fn asked(text: &str) -> Result<Vec<u8>, String> {
    let (ask, table) = text.split_once('\n').unwrap_or((text, ""));
    let right = ask.strip_prefix("ask ").ok_or("no right asked for")?;
    let mut input = vec![number(right)?];
    input.extend(file(table)?);
    Ok(input)
}

/// The file of a table.
pub fn file(text: &str) -> Result<Vec<u8>, String> {
    match tugcaphi::table::read(text.as_bytes()) {
        Ok(table) => Ok(encode(&table.house)),
        Err(mistake) => Err(format!("{mistake:?}")),
    }
}

/// The damaged input that a text describes, or the number of the wrong line and
/// what is wrong with it.
pub fn damaged(text: &str) -> Result<Vec<u8>, String> {
    let mut table = Table {
        asked: None,
        draft: Draft::empty(1),
        sizes: [None; 3],
        bytes: Vec::new(),
        size: None,
    };
    for (number, line) in text.lines().enumerate() {
        let line = line.split('#').next().unwrap_or("").trim();
        if !line.is_empty() {
            table
                .read(line)
                .map_err(|wrong| format!("line {}: {wrong}", number + 1))?;
        }
    }
    Ok(table.input())
}

struct Table {
    asked: Option<u8>,
    draft: Draft,
    /// How many bytes kinds, cells and carries have.
    sizes: [Option<usize>; 3],
    bytes: Vec<(usize, u8)>,
    size: Option<usize>,
}

impl Table {
    fn read(&mut self, line: &str) -> Result<(), String> {
        let (word, rest) = line.split_once(' ').unwrap_or((line, ""));
        match word {
            "ask" => self.asked = Some(number(rest)?),
            "rights" => {
                self.draft.rights = number(rest)?;
                self.draft.carries = vec![0; self.draft.rights as usize];
            }
            "subjects" => self.kinds(rest, 2)?,
            "objects" => self.kinds(rest, 1)?,
            "kind" => {
                let (name, kind) = halves(rest, ":")?;
                self.draft.kinds[name_of(name)?] = number(kind)?;
            }
            "cell" => {
                let (cell, rights) = halves(rest, ":")?;
                let (subjects, objects) = pair(cell)?;
                for subject in stretch(subjects)? {
                    for object in stretch(objects)? {
                        for right in rights.split_whitespace() {
                            self.draft.put(subject, object, bit(right)?);
                        }
                    }
                }
            }
            "carries" => {
                let (right, others) = halves(rest, ":")?;
                let right: u8 = number(right)?;
                if usize::from(right) >= self.draft.carries.len() {
                    return Err(format!("no entry for right {right}"));
                }
                for other in others.split_whitespace() {
                    self.draft.carry(right, bit(other)?);
                }
            }
            "rule" => {
                let (blanks, body) = halves(rest, ":")?;
                let section = if blanks == "bytes" {
                    numbers(body)?
                } else {
                    section(blanks, body)?
                };
                self.draft.rules.push(section);
            }
            "size" => {
                let (what, size) = halves(rest, ":")?;
                let size: usize = number(size)?;
                match what {
                    "kinds" => self.sizes[0] = Some(size),
                    "cells" => self.sizes[1] = Some(size),
                    "carries" => self.sizes[2] = Some(size),
                    "file" => self.size = Some(size),
                    _ => return Err(format!("size of what: {what}")),
                }
            }
            "byte" => {
                let (offset, byte) = halves(rest, ":")?;
                self.bytes.push((number(offset)?, number(byte)?));
            }
            _ => return Err(format!("unknown: {word}")),
        }
        Ok(())
    }

    fn kinds(&mut self, names: &str, kind: u8) -> Result<(), String> {
        for part in names.split_whitespace() {
            for name in stretch(part)? {
                self.draft.kinds[name] = kind;
            }
        }
        Ok(())
    }

    fn input(&self) -> Vec<u8> {
        let Some(asked) = self.asked else {
            return Vec::new();
        };
        let mut sections = self.draft.sections();
        for (section, size) in sections.iter_mut().zip(self.sizes) {
            section.resize(size.unwrap_or(section.len()), 0);
        }
        let mut file = joined(self.draft.rights, &sections);
        for &(offset, byte) in &self.bytes {
            file[offset] = byte;
        }
        if let Some(size) = self.size {
            file.resize(size, 0);
        }
        let mut input = vec![asked];
        input.extend(file);
        input
    }
}

/// A rule's section from its blanks, `(a,b)`, and its conditions and steps.
fn section(blanks: &str, body: &str) -> Result<Vec<u8>, String> {
    let blanks: Vec<&str> = inside(blanks)?.split(',').map(str::trim).collect();
    let blank = |name: &str| -> Result<u8, String> {
        let place = blanks.iter().position(|blank| *blank == name.trim());
        let place = place.ok_or_else(|| format!("no such blank: {name}"))?;
        Ok(place as u8)
    };
    let cell = |text: &str| -> Result<(u8, u8), String> {
        let (subject, object) = pair(text)?;
        Ok((blank(subject)?, blank(object)?))
    };

    let mut steps_text = body;
    let mut conditions = Vec::new();
    if let Some(rest) = body.strip_prefix("if ") {
        // The conditions end with the bracket before the first step.
        let verbs = ["enter", "delete", "create", "destroy"];
        let end = verbs.iter().filter_map(|verb| rest.find(verb)).min();
        let (tests, steps) = rest.split_at(end.ok_or("no step")?);
        steps_text = steps;
        for test in tests.split(" and ") {
            let (right, place) = halves(test, " in ")?;
            let (subject, object) = cell(place)?;
            conditions.push([number(right)?, subject, object]);
        }
    }
    let mut steps = Vec::new();
    for step in steps_text.split(';') {
        let (verb, rest) = halves(step, " ")?;
        let (kind, between) = match verb {
            "enter" => (ENTER, " into "),
            "delete" => (DELETE, " from "),
            "create" | "destroy" => {
                let (kind, name) = halves(rest, " ")?;
                let kind = match (verb, kind) {
                    ("create", "subject") => CREATE_SUBJECT,
                    ("create", "object") => CREATE_OBJECT,
                    ("destroy", "subject") => DESTROY_SUBJECT,
                    ("destroy", "object") => DESTROY_OBJECT,
                    _ => return Err(format!("no step: {step}")),
                };
                steps.push([kind, 0, blank(name)?, 0]);
                continue;
            }
            _ => return Err(format!("no step: {step}")),
        };
        let (right, place) = halves(rest, between)?;
        let (subject, object) = cell(place)?;
        steps.push([kind, number(right)?, subject, object]);
    }
    Ok(rule(blanks.len() as u8, &conditions, &steps))
}

fn number<T: FromStr>(text: &str) -> Result<T, String> {
    let text = text.trim();
    text.parse()
        .map_err(|_| format!("not a number here: {text}"))
}

fn numbers(text: &str) -> Result<Vec<u8>, String> {
    text.split_whitespace().map(number).collect()
}

/// A right that has a bit in a set of them.
fn bit(text: &str) -> Result<u8, String> {
    match number(text)? {
        right if u32::from(right) < Set::BITS => Ok(right),
        right => Err(format!("no bit for right {right}")),
    }
}

fn name_of(text: &str) -> Result<usize, String> {
    match number(text)? {
        name if name < 32 => Ok(name),
        name => Err(format!("no name: {name}")),
    }
}

/// One name, or the names from one to another: `4` or `4-6`.
fn stretch(text: &str) -> Result<std::ops::RangeInclusive<usize>, String> {
    let (first, last) = text.split_once('-').unwrap_or((text, text));
    let stretch = name_of(first)?..=name_of(last)?;
    match stretch.is_empty() {
        true => Err(format!("a stretch with nothing in it: {text}")),
        false => Ok(stretch),
    }
}

fn halves<'a>(text: &'a str, between: &str) -> Result<(&'a str, &'a str), String> {
    match text.trim().split_once(between) {
        Some((one, other)) => Ok((one.trim(), other.trim())),
        None => Err(format!("no '{between}' in: {text}")),
    }
}

fn inside(text: &str) -> Result<&str, String> {
    let text = text.trim();
    let inner = text
        .strip_prefix('(')
        .and_then(|rest| rest.strip_suffix(')'));
    inner.ok_or_else(|| format!("no brackets: {text}"))
}

fn pair(text: &str) -> Result<(&str, &str), String> {
    halves(inside(text)?, ",")
}
