//! Texts that are no tables, or not quite: every one is read or its mistake is
//! told, at a place in it, and what is read makes a file. And characters by which
//! two words could look the same.

use super::wording::Wording;
use super::writing::text;
use reference::generate::{lively, small};
use reference::random::Random;
use reference::report::{Group, Report};
use std::collections::BTreeMap;
use std::ffi::OsStr;
use std::panic::catch_unwind;
use tugcaphi::input::made;
use tugcaphi::table::mistake::Code;
use tugcaphi::table::{self, writer};
use tugcaphi::terminal::Style;

const PIECES: [&str; 36] = [
    " ",
    "\n",
    "\r",
    "\t",
    "\"",
    "\\",
    "#",
    "(",
    ")",
    ",",
    ":",
    ";",
    "=",
    "..",
    ".",
    "-",
    "_",
    "0",
    "7",
    "99999999999999999999",
    "Ada",
    "é",
    "朱",
    "e\u{301}",
    "\u{FEFF}",
    "\u{0}",
    "\u{202E}",
    "“",
    "rule x (a): ",
    "if",
    " and ",
    "enter",
    "table 1\n",
    "cell (",
    "carries ",
    "\ncarries Ada: ",
];

pub fn run(report: &mut Report, seed: u64) {
    let mut random = Random::new(seed ^ 0x6A5B);
    let mut codes: BTreeMap<&str, u64> = BTreeMap::new();
    report.group(
        "damaged texts are read, or their mistake is told",
        20_000,
        |group| {
            for _ in 0..20_000 {
                let bytes = damaged(&mut random);
                let said = catch_unwind(|| answered(&bytes)).unwrap_or(Err("it panics".into()));
                if let Ok(Some(code)) = said {
                    *codes.entry(code).or_default() += 1;
                }
                group.input(said.is_ok(), || {
                    let text = String::from_utf8_lossy(&bytes);
                    format!("{said:?}: {text:.400?}")
                });
            }
            let seen = codes.len();
            group.demand(seen > 25, || format!("only {seen} sorts of mistakes"));
        },
    );
    report.group("what cannot be seen is a mistake", 4_000, |group| {
        for character in all(&UNSEEN).chain(blank()) {
            is(group, character, Code::Unseen);
        }
    });
    report.group("an accent by itself is a mistake", 100, |group| {
        for character in all(&ACCENTS) {
            is(group, character, Code::Accent);
        }
    });
}

/// Unicode's characters that are drawn as nothing (default ignorable), and a few
/// that look like a space.
const UNSEEN: [(u32, u32); 18] = [
    (0xAD, 0xAD),
    (0x34F, 0x34F),
    (0x61C, 0x61C),
    (0x115F, 0x1160),
    (0x17B4, 0x17B5),
    (0x180B, 0x180F),
    (0x200B, 0x200F),
    (0x202A, 0x202E),
    (0x2060, 0x206F),
    (0x2800, 0x2800),
    (0x3164, 0x3164),
    (0xFE00, 0xFE0F),
    (0xFEFF, 0xFEFF),
    (0xFFA0, 0xFFA0),
    (0xFFF0, 0xFFF8),
    (0x1BCA0, 0x1BCA3),
    (0x1D173, 0x1D17A),
    (0xE0000, 0xE0FFF),
];

/// Accents, the two marks of Japanese letters, the later parts of Korean ones.
const ACCENTS: [(u32, u32); 4] = [
    (0x300, 0x34E),
    (0x350, 0x36F),
    (0x3099, 0x309A),
    (0x1161, 0x11FF),
];

fn all(ranges: &'static [(u32, u32)]) -> impl Iterator<Item = char> {
    let numbers = ranges.iter().flat_map(|&(from, to)| from..=to);
    numbers.filter_map(char::from_u32)
}

/// Whatever the standard library calls a space or a control character, but for
/// those that a table has.
fn blank() -> impl Iterator<Item = char> {
    let known = [' ', '\t', '\n', '\r'];
    (char::MIN..=char::MAX)
        .filter(move |c| (c.is_whitespace() || c.is_control()) && !known.contains(c))
}

/// Within quotes any character that can be seen may stand.
fn is(group: &mut Group, character: char, code: Code) {
    let text = format!("table 1\nrights own\nsubjects \"A{character}da\"\n");
    let mistake = table::read(text.as_bytes()).err();
    let told = mistake.is_some_and(|mistake| mistake.code == code && mistake.line == 3);
    group.input(told, || format!("U+{:04X}", u32::from(character)));
}

/// A table's text with something in it changed.
fn damaged(random: &mut Random) -> Vec<u8> {
    let draft = match random.percent(20) {
        true => lively(random),
        false => small(random),
    };
    let wording = Wording::any(random, &draft);
    let mut bytes = text(random, &draft, &wording);
    for _ in 0..random.between(1, 3) {
        let at = random.below(bytes.len() + 1);
        let to = (at + random.below(12)).min(bytes.len());
        match random.below(6) {
            0 => {
                bytes.drain(at..to);
            }
            1 => {
                let copy = bytes[at..to].to_vec();
                let back = random.below(bytes.len() + 1);
                bytes.splice(back..back, copy);
            }
            2 if at < bytes.len() => bytes[at] = random.byte(),
            3 => bytes.truncate(at.max(8)),
            _ => {
                let piece = random.pick(&PIECES).bytes();
                bytes.splice(at..at, piece);
            }
        }
    }
    bytes
}

/// The sort of mistake that is told, or none where the text is a table after all.
fn answered(bytes: &[u8]) -> Result<Option<&'static str>, String> {
    let table = match table::read(bytes) {
        Ok(table) => table,
        Err(mistake) => {
            let text = String::from_utf8_lossy(bytes)
                .replace("\r\n", "\n")
                .replace('\r', "\n");
            let text = text.trim_start_matches('\u{FEFF}');
            let line = text
                .split('\n')
                .nth(mistake.line - 1)
                .ok_or("no such line")?;
            let columns = line.chars().count() + 1;
            let shown = mistake.shown("t.table", Style::PLAIN);
            let told = !mistake.found.is_empty() && !mistake.expected.is_empty();
            return match mistake.column <= columns && told && shown.contains('^') {
                true => Ok(Some(mistake.code.word())),
                false => Err(format!("{mistake:?}")),
            };
        }
    };
    match made(&table, OsStr::new("t.table")) {
        Ok((_, 0)) => {}
        answer => return Err(format!("made: {:?}", answer.map(|(_, refusal)| refusal))),
    }
    let again = writer::write(&table.house, &table.words);
    match table::read(again.as_bytes()) {
        Ok(same) if same.house == table.house && same.words == table.words => Ok(None),
        _ => Err(format!("written again: {again}")),
    }
}
