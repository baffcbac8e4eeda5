//! The commands: what each takes, and what it answers.

pub mod check;
pub mod judge;
pub mod make;
pub mod need;
pub mod replay;
pub mod run;
pub mod show;

use crate::arguments::{Arguments, Choice};
use crate::failure::Failure;
use crate::input::{self, shown, Content, Input};
use crate::json::Json;
use crate::output::{self, Manner};
use crate::refused::BadFile;
use crate::terminal::Style;
use std::ffi::OsStr;

/// How an answer is to look.
pub struct View {
    pub style: Style,
    /// The columns of the terminal, if there is one.
    pub columns: Option<usize>,
}

/// What a command answers: to people, to programs, and by the exit status.
#[derive(Default)]
pub struct Answer {
    pub status: u8,
    pub text: Vec<u8>,
    pub json: Vec<(&'static str, Json)>,
    /// Said on standard error.
    pub notes: Vec<String>,
    /// What went wrong with some of what was asked for.
    pub failures: Vec<Failure>,
}

/// The exit statuses that are answers.
pub const GOOD: u8 = 0;
pub const LEAK: u8 = 1;
pub const NEVER: u8 = 1;
pub const REFUSED: u8 = 2;

pub struct Command {
    pub name: &'static str,
    /// What comes after the command's word.
    pub usage: &'static str,
    /// One line.
    pub summary: &'static str,
    /// What else there is to know.
    pub about: &'static str,
    /// How many words besides options it takes.
    pub least: usize,
    pub most: usize,
    pub options: &'static [Choice],
    pub run: fn(&Arguments, &View) -> Result<Answer, Failure>,
}

pub const ALL: [&Command; 7] = [
    &make::COMMAND,
    &show::COMMAND,
    &check::COMMAND,
    &judge::COMMAND,
    &need::COMMAND,
    &run::COMMAND,
    &replay::COMMAND,
];

/// Options that every command has.
const JSON: Choice = Choice {
    long: "--json",
    short: None,
    value: None,
    help: "the answer as JSON, for other programs (docs/JSON.md)",
};
const HELP: Choice = Choice {
    long: "--help",
    short: Some("-h"),
    value: None,
    help: "this help",
};

/// Options that several commands have.
pub const NAMES: Choice = Choice {
    long: "--names",
    short: None,
    value: Some("TABLE"),
    help:
        "the words of this table for a house file; its rights, carries and rules must be the file's",
};
pub const FORCE: Choice = Choice {
    long: "--force",
    short: None,
    value: None,
    help: "write over files that are there",
};
/// The steps of an answer that has some.
pub const fn trace(help: &'static str) -> Choice {
    Choice {
        long: "--trace",
        short: None,
        value: Some("OUT"),
        help,
    }
}
pub const NO_WAIT: Choice = Choice {
    long: "--no-wait",
    short: None,
    value: None,
    help: "stop at once if another run is at work on the file, instead of waiting",
};

/// The answer about the file or table that comes first, or the proved reader's refusal of it.
pub fn about(
    arguments: &Arguments,
    view: &View,
    answer: impl FnOnce(&Input, &Content) -> Result<Answer, Failure>,
) -> Result<Answer, Failure> {
    let input = input::read(&arguments.plain[0], arguments.value("--names"))?;
    match &input.content {
        Ok(content) => answer(&input, content),
        Err(refusal) => Ok(refused(&input, *refusal, view)),
    }
}

/// The answer of a command to a file that the proved reader refuses.
pub fn refused(input: &Input, refusal: u8, view: &View) -> Answer {
    let bad = BadFile::new(&input.file, refusal);
    let mut json = vec![("input", input.json()), ("answer", "refused".into())];
    json.extend(bad.json());
    Answer {
        status: REFUSED,
        text: bad.lines(&input.path, view.style).into_bytes(),
        json,
        ..Answer::default()
    }
}

/// Writes what an option of a command asks for, if it is there, and says so.
pub fn put(
    answer: &mut Answer,
    command: &Command,
    arguments: &Arguments,
    option: &str,
    content: impl FnOnce() -> Vec<u8>,
) {
    let Some(path) = arguments.value(option) else {
        return;
    };
    match command.write(path, &content(), arguments.has("--force")) {
        Ok(notes) => answer.notes.extend(notes),
        Err(failure) => answer.failures.push(failure),
    }
}

/// Writes the steps where `--trace` asks for them. An empty trace would be replayed without a leak and without a refusal,
/// so that a refused question leaves none.
pub fn put_trace(answer: &mut Answer, command: &Command, arguments: &Arguments, trace: &[u8]) {
    match arguments.value("--trace") {
        Some(path) if answer.status == REFUSED => {
            let path = shown(path);
            let note = format!("{path} was not written: a refused question has no steps");
            answer.notes.push(note);
        }
        _ => put(answer, command, arguments, "--trace", || trace.to_vec()),
    }
}

impl Command {
    fn write(&self, path: &OsStr, content: &[u8], force: bool) -> Result<Vec<String>, Failure> {
        if path == "-" {
            let message = format!("{}: standard output is taken by the answer", self.name);
            return Err(Failure::said(message, "give the path of a file"));
        }
        let manner = Manner { force, wait: true };
        let mut notes = output::write(path, content, &manner)?;
        notes.push(format!("wrote {}", shown(path)));
        Ok(notes)
    }

    pub fn choices(&self) -> Vec<&Choice> {
        self.options.iter().chain([&JSON, &HELP]).collect()
    }

    /// Whether that many words are as many as the command takes.
    pub fn count(&self, words: usize) -> Result<(), Failure> {
        let message = match words {
            n if n < self.least => "something is missing",
            n if n > self.most => "there is a word too many",
            _ => return Ok(()),
        };
        let advice = format!("write tugcaphi {} {}", self.name, self.usage);
        Err(Failure::said(format!("{}: {message}", self.name), advice))
    }
}
