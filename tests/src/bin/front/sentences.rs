//! Every sentence that the table reader can say is said in a transcript: the
//! texts in its sources are looked for in what the transcripts show.

use super::transcripts::Shown;
use reference::report::Report;
use std::fs;
use std::path::PathBuf;

/// What tells no mistakes: the comparison of a file with its table, and tables as
/// text.
const OTHERS: [&str; 3] = ["readback.rs", "syntax.rs", "writer.rs"];

pub fn run(report: &mut Report, shown: &Shown) {
    let all = shown.told.iter().map(|told| told.said.err.as_slice());
    let all = all.collect::<Vec<_>>().concat();
    let said = String::from_utf8_lossy(&all);
    report.group("every sentence of the table reader", 100, |group| {
        for path in sources() {
            let text = fs::read_to_string(&path).expect("a source of ours");
            let name = path.file_name().unwrap_or_default().to_string_lossy();
            for sentence in literals(&text) {
                let parts = parts(&sentence);
                let heard = said.lines().any(|line| within(line, &parts));
                group.input(heard, || format!("{name}: no transcript says {sentence:?}"));
            }
        }
    });
}

fn sources() -> Vec<PathBuf> {
    let entries = fs::read_dir("../cli/src/table").expect("the table reader");
    let mut paths: Vec<PathBuf> = entries
        .map(|entry| entry.expect("a source").path())
        .collect();
    let other = |path: &PathBuf| OTHERS.iter().any(|other| path.ends_with(other));
    paths.retain(|path| !other(path));
    paths.sort();
    paths
}

/// The texts in a source that are sentences, without those for a program that is at fault (`expect`).
fn literals(source: &str) -> Vec<String> {
    let mut found = Vec::new();
    let mut rest = source;
    let mut before = "";
    while let Some(at) = rest.find(['"', '\'', '/']) {
        let (skipped, here) = rest.split_at(at);
        if !skipped.trim().is_empty() {
            before = skipped;
        }
        rest = if here.starts_with("//") {
            here.split_once('\n').map_or("", |(_, after)| after)
        } else if here.starts_with('"') {
            let (text, after) = quoted(&here[1..]);
            let internal = before.trim_end().ends_with(".expect(");
            if text.contains(' ') && text.trim().len() >= 8 && !internal {
                found.push(text);
            }
            after
        } else if here.starts_with('\'') {
            character(&here[1..])
        } else {
            &here[1..]
        };
    }
    found
}

/// A text behind its first quote, and what follows it.
fn quoted(source: &str) -> (String, &str) {
    let mut text = String::new();
    let mut rest = source;
    loop {
        let Some(at) = rest.find(['"', '\\']) else {
            return (text, "");
        };
        text.push_str(&rest[..at]);
        let (mark, after) = rest[at..].split_at(1);
        if mark == "\"" {
            return (text, after);
        }
        rest = match after.chars().next() {
            // A line that goes on.
            Some('\n') => after.trim_start(),
            Some(escaped) => {
                text.push(escaped);
                &after[escaped.len_utf8()..]
            }
            None => "",
        };
    }
}

/// What follows a character, or the mark of a lifetime.
fn character(source: &str) -> &str {
    let length = match source.strip_prefix('\\') {
        Some(escaped) => escaped
            .chars()
            .skip(1)
            .position(|c| c == '\'')
            .map(|at| at + 2),
        None => (source.chars().nth(1) == Some('\'')).then_some(1),
    };
    let behind = |length: usize| source.chars().take(length + 1).map(char::len_utf8).sum();
    &source[length.map_or(0, behind)..]
}

/// What stands around the places that are filled in.
fn parts(sentence: &str) -> Vec<&str> {
    let pieces = sentence.split('{');
    let behind = |piece: &'_ str| piece.find('}').map_or(0, |at| at + 1);
    pieces
        .enumerate()
        .map(|(i, piece)| {
            if i == 0 {
                piece
            } else {
                &piece[behind(piece)..]
            }
        })
        .collect()
}

fn within(line: &str, parts: &[&str]) -> bool {
    let mut rest = line;
    parts.iter().all(|part| match rest.split_once(part) {
        Some((_, after)) => {
            rest = after;
            true
        }
        None => false,
    })
}
