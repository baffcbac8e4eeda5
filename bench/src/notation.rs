//! A table and the right asked for as a short text: a line for the right, the kinds,
//! the carries, for each right that stands somewhere its 32 rows, and for each rule.
//!
//! A row is a hexadecimal number with a bit for each column. `a*n` is n rows a, `a,b*n`
//! n rows a and b in turn, `a/n` n rows each of which is twice the one before. A rule
//! is its section of the file, and `*n` behind it says how often it stands there.

use reference::file::{Set, NAMES};
use reference::generate::Draft;
use std::fmt::Write;

pub fn write(draft: &Draft, right: u8) -> String {
    let mut text = format!("asked {right}\nkinds ");
    for kind in &draft.kinds {
        write!(text, "{kind}").unwrap();
    }
    text += "\ncarries";
    for set in &draft.carries {
        write!(text, " {set:x}").unwrap();
    }
    text.push('\n');
    for right in 0..draft.rights {
        let rows = rows_of(draft, right);
        if rows.iter().any(|row| *row != 0) {
            writeln!(text, "cells {right}{}", runs(&rows)).unwrap();
        }
    }
    for same in draft.rules.chunk_by(|one, other| one == other) {
        let bytes: String = same[0].iter().map(|byte| format!("{byte:02x}")).collect();
        writeln!(text, "rule {bytes}*{}", same.len()).unwrap();
    }
    text
}

fn rows_of(draft: &Draft, right: u8) -> Vec<u32> {
    let bit = |s: usize, o: usize| u32::from(draft.cells[NAMES * s + o] >> right & 1) << o;
    let row = |s| (0..NAMES).map(|o| bit(s, o)).sum();
    (0..NAMES).map(row).collect()
}

/// How many rows from the front on go on as the rule says.
fn going(rows: &[u32], next: impl Fn(usize) -> u32) -> usize {
    let fits = |place: &usize| rows[*place] == next(*place);
    (0..rows.len()).take_while(fits).count()
}

fn runs(rows: &[u32]) -> String {
    let mut text = String::new();
    let mut rest = rows;
    while let Some((&first, others)) = rest.split_first() {
        let second = others.first().copied().unwrap_or(0);
        let same = going(rest, |_| first);
        let turn = match going(rest, |place| [first, second][place % 2]) {
            2 => 0,
            many => many,
        };
        let twice = going(rest, |place| first.checked_shl(place as u32).unwrap_or(0));
        let many = same.max(turn).max(twice);
        if many == same {
            write!(text, " {first:x}*{many}").unwrap();
        } else if many == twice {
            write!(text, " {first:x}/{many}").unwrap();
        } else {
            write!(text, " {first:x},{second:x}*{many}").unwrap();
        }
        rest = &rest[many..];
    }
    text
}

/// Reads what `write` wrote; a text that it did not write is no table.
pub fn read(text: &str) -> (Draft, u8) {
    let mut draft = Draft::empty(0);
    let mut asked = 0;
    for line in text.lines() {
        let (word, rest) = line.split_once(' ').expect("a word and more");
        match word {
            "asked" => asked = rest.parse().expect("a right"),
            "kinds" => draft.kinds = rest.bytes().map(|digit| digit - b'0').collect(),
            "carries" => {
                let sets = rest.split(' ').map(|set| Set::from_str_radix(set, 16));
                draft.carries = sets.collect::<Result<_, _>>().expect("sets");
                draft.rights = draft.carries.len() as u8;
            }
            "cells" => read_cells(&mut draft, rest),
            "rule" => {
                let (bytes, many) = rest.split_once('*').expect("a number of rules");
                let byte = |at| u8::from_str_radix(&bytes[at..at + 2], 16).expect("bytes");
                let section: Vec<u8> = (0..bytes.len()).step_by(2).map(byte).collect();
                let many: usize = many.parse().expect("a number of rules");
                draft.rules.extend(vec![section; many]);
            }
            _ => panic!("no such line: {line}"),
        }
    }
    (draft, asked)
}

fn read_cells(draft: &mut Draft, text: &str) {
    let mut words = text.split(' ');
    let right: u8 = words
        .next()
        .and_then(|word| word.parse().ok())
        .expect("a right");
    let rows: Vec<u32> = words.flat_map(read_run).collect();
    for (s, row) in rows.into_iter().enumerate() {
        for o in (0..NAMES).filter(|o| row >> o & 1 == 1) {
            draft.put(s, o, right);
        }
    }
}

fn read_run(word: &str) -> Vec<u32> {
    let row = |text: &str| u32::from_str_radix(text, 16).expect("a row");
    let many = |text: &str| text.parse::<u32>().expect("a number of rows");
    if let Some((first, count)) = word.split_once('/') {
        return (0..many(count)).map(|place| row(first) << place).collect();
    }
    let (rows, count) = word.split_once('*').expect("a number of rows");
    let rows: Vec<u32> = rows.split(',').map(row).collect();
    let turn = rows.iter().cycle().copied();
    turn.take(many(count) as usize).collect()
}

#[cfg(test)]
mod tests {
    use super::{read, write};
    use crate::families::known;

    #[test]
    fn what_is_written_is_read() {
        for sample in known() {
            let (draft, right) = read(&write(&sample.draft, sample.right));
            assert_eq!(draft.file(), sample.draft.file(), "{}", sample.name);
            assert_eq!(right, sample.right, "{}", sample.name);
        }
    }
}
