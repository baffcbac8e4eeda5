//! Stored transcripts, `front/NAME.transcript`: files, then commands with what
//! each prints and its exit status.
//!
//! ```text
//! # What it would catch.
//! -- file shop.table              a file, up to `-- end`
//! table 1
//! -- end
//! -- text dos.table: table 1\r\n  a file in one line; \r \n \t \\ \xff
//! -- patch shop.file 2: 11        a byte of a file that is there
//! -- fill long.table 99: #        a file of 99 times a text, written as above
//! $ tugcaphi check shop.file < shop.table
//! shop.file: accepted             standard output
//! ! error: ..                     standard error
//! = 0                             the exit status
//! ```
//!
//! `$ same A B` is a command of this program; it compares two files.

use super::execute::{Folder, Said};
use reference::report::Report;
use std::fs;
use std::path::{Path, PathBuf};

/// A command that was run, for the other groups.
pub struct Told {
    pub words: Vec<String>,
    pub said: Said,
}

/// All that transcripts have shown.
#[derive(Default)]
pub struct Shown {
    pub told: Vec<Told>,
    /// Files that the transcripts wrote themselves.
    pub files: Vec<Vec<u8>>,
}

pub fn run(report: &mut Report) -> Shown {
    let mut shown = Shown::default();
    let bless = std::env::var_os("FRONT_BLESS").is_some();
    let paths = stored();
    report.group("transcripts are all there", 20, |group| {
        for path in &paths {
            group.input(path.extension().is_some_and(|e| e == "transcript"), || {
                format!("{}: no transcript", path.display())
            });
        }
    });
    for path in paths {
        let name = path
            .file_stem()
            .unwrap_or_default()
            .to_string_lossy()
            .into_owned();
        report.group(&format!("transcript {name}"), 1, |group| {
            let text = fs::read_to_string(&path).unwrap_or_default();
            let folder = Folder::new(&name).with_examples();
            match replayed(&text, &folder, &mut shown) {
                Ok((commands, actual)) => {
                    if bless && actual != text {
                        fs::write(&path, &actual).expect("a transcript");
                    }
                    group.inputs += commands;
                    group.demand(actual == text || bless, || difference(&text, &actual));
                }
                Err(wrong) => group.demand(false, || wrong),
            }
        });
    }
    shown
}

fn stored() -> Vec<PathBuf> {
    let entries = fs::read_dir("front").expect("run in tests/");
    let mut paths: Vec<PathBuf> = entries.filter_map(|e| e.ok().map(|e| e.path())).collect();
    paths.sort();
    paths
}

/// The first line that is otherwise.
pub fn difference(wanted: &str, given: &str) -> String {
    let mut lines = wanted.lines().zip(given.lines()).enumerate();
    match lines.find(|(_, (wanted, given))| wanted != given) {
        Some((i, (wanted, given))) => {
            format!("line {}: wanted {wanted:?}, given {given:?}", i + 1)
        }
        None => "one is longer than the other".to_string(),
    }
}

/// The number of commands, and the transcript as it comes out.
pub fn replayed(text: &str, folder: &Folder, shown: &mut Shown) -> Result<(u64, String), String> {
    let mut actual = String::new();
    let mut commands = 0;
    let mut lines = text.lines().peekable();
    while let Some(line) = lines.next() {
        actual += &format!("{line}\n");
        if let Some(name) = line.strip_prefix("-- file ") {
            let mut content = String::new();
            for line in lines.by_ref() {
                actual += &format!("{line}\n");
                if line == "-- end" {
                    break;
                }
                content += &format!("{line}\n");
            }
            shown.files.push(content.clone().into_bytes());
            folder.write(name, content.as_bytes());
        } else if let Some(rest) = line.strip_prefix("-- ") {
            shown.files.extend(directive(rest, folder)?);
        } else if let Some(command) = line.strip_prefix("$ ") {
            while lines.next_if(|line| !outside(line)).is_some() {}
            commands += 1;
            let told = carried_out(command, folder)?;
            actual += &printed(&told.said);
            shown.told.push(told);
        }
    }
    Ok((commands, actual))
}

/// A line that belongs to no command's answer.
fn outside(line: &str) -> bool {
    ["$ ", "-- ", "#@"]
        .iter()
        .any(|begin| line.starts_with(begin))
}

/// Another way to write a file; the answer is its content.
fn directive(rest: &str, folder: &Folder) -> Result<Option<Vec<u8>>, String> {
    let wrong = || format!("no directive: {rest}");
    let (what, value) = rest.split_once(": ").ok_or_else(wrong)?;
    let words: Vec<&str> = what.split(' ').collect();
    let number = |text: &str| text.parse::<usize>().map_err(|_| wrong());
    match words.as_slice() {
        ["text", name] => {
            let content = unescaped(value);
            folder.write(name, &content);
            Ok(Some(content))
        }
        ["fill", name, count] => {
            let content = unescaped(value).repeat(number(count)?);
            folder.write(name, &content);
            Ok(Some(content))
        }
        ["patch", name, offset] => {
            let mut content = folder.read(name);
            let byte = content.get_mut(number(offset)?).ok_or_else(wrong)?;
            *byte = number(value)? as u8;
            folder.write(name, &content);
            Ok(None)
        }
        ["cut", name] => {
            let mut content = folder.read(name);
            content.resize(number(value)?, 0);
            folder.write(name, &content);
            Ok(None)
        }
        _ => Err(wrong()),
    }
}

fn unescaped(text: &str) -> Vec<u8> {
    let mut bytes = Vec::new();
    let mut rest = text.bytes();
    while let Some(byte) = rest.next() {
        if byte != b'\\' {
            bytes.push(byte);
            continue;
        }
        match rest.next() {
            Some(b'n') => bytes.push(b'\n'),
            Some(b'r') => bytes.push(b'\r'),
            Some(b't') => bytes.push(b'\t'),
            Some(b'x') => {
                let digits = [rest.next().unwrap_or(b'0'), rest.next().unwrap_or(b'0')];
                let digits = String::from_utf8_lossy(&digits).into_owned();
                bytes.push(u8::from_str_radix(&digits, 16).unwrap_or(0));
            }
            other => bytes.push(other.unwrap_or(b'\\')),
        }
    }
    bytes
}

fn carried_out(command: &str, folder: &Folder) -> Result<Told, String> {
    let mut words = words(command);
    let mut input = None;
    if let Some(place) = words.iter().position(|word| word == "<") {
        input = words.get(place + 1).cloned();
        words.truncate(place);
    }
    let said = match words.first().map(String::as_str) {
        Some("tugcaphi") => folder.run(&words[1..], input.as_deref()),
        Some("same") if words.len() == 3 => same(folder, &words[1], &words[2]),
        _ => return Err(format!("no command: {command}")),
    };
    words.remove(0);
    Ok(Told { words, said })
}

/// Words with spaces between them; what stands in quotes is one word.
fn words(command: &str) -> Vec<String> {
    let mut words = Vec::new();
    let mut word = String::new();
    let mut quote = None;
    let mut begun = false;
    for character in command.chars() {
        match (quote, character) {
            (None, '\'' | '"') => (quote, begun) = (Some(character), true),
            (Some(open), _) if open == character => quote = None,
            (None, ' ') => {
                if begun {
                    words.push(std::mem::take(&mut word));
                }
                begun = false;
            }
            _ => {
                word.push(character);
                begun = true;
            }
        }
    }
    if begun {
        words.push(word);
    }
    words
}

fn same(folder: &Folder, one: &str, other: &str) -> Said {
    let there = |name: &str| Path::new(&folder.path.join(name)).exists();
    let same = there(one) && there(other) && folder.read(one) == folder.read(other);
    let out = if same {
        "the same bytes\n"
    } else {
        "different\n"
    };
    Said {
        out: out.into(),
        err: Vec::new(),
        status: i32::from(!same),
    }
}

fn printed(said: &Said) -> String {
    let mut text = String::from_utf8_lossy(&said.out).into_owned();
    if !text.is_empty() && !text.ends_with('\n') {
        text += "\\\n";
    }
    for line in String::from_utf8_lossy(&said.err).lines() {
        text += &format!("! {line}\n");
    }
    text + &format!("= {}\n", said.status)
}
