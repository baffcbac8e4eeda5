//! The program: which command, its answer, and where the answer goes.

use crate::arguments::Arguments;
use crate::commands::{Answer, Command, View, ALL};
use crate::failure::{told, Failure};
use crate::help;
use crate::json::Json;
use crate::table::word::nearest;
use crate::terminal::{columns, Style};
use std::ffi::OsString;
use std::io::{self, ErrorKind, Write};

/// The exit status of everything that is no answer: usage, files.
pub const FAILED: u8 = 3;

/// Does what the words of the command line say and gives the exit status.
pub fn run(mut words: Vec<OsString>) -> u8 {
    let mut options = words.iter().take_while(|word| *word != "--");
    let json = options.any(|word| word == "--json");
    if words.is_empty() {
        return fail(&none(), "", false);
    }
    let first = words.remove(0).to_string_lossy().into_owned();
    match first.as_str() {
        "--version" | "-V" => return print(help::version().as_bytes()),
        "--help" | "-h" => return print(help::program().as_bytes()),
        "help" if words.is_empty() => return print(help::program().as_bytes()),
        "help" => return about(&words),
        _ => {}
    }
    match ALL.iter().find(|command| command.name == first) {
        Some(command) => carry_out(command, words, json),
        None => fail(&unknown(&first), "", json),
    }
}

fn about(words: &[OsString]) -> u8 {
    let word = words[0].to_string_lossy();
    match ALL.iter().find(|command| command.name == word) {
        Some(command) => print(help::command(command).as_bytes()),
        None => fail(&unknown(&word), "", false),
    }
}

fn carry_out(command: &Command, words: Vec<OsString>, json: bool) -> u8 {
    let asks = |word: &OsString| word == "--help" || word == "-h";
    if words.iter().take_while(|word| *word != "--").any(asks) {
        return print(help::command(command).as_bytes());
    }
    let view = View {
        style: match json {
            true => Style::PLAIN,
            false => Style::of(&io::stdout()),
        },
        columns: columns(),
    };
    let answer = Arguments::read(words, &command.choices()).and_then(|arguments| {
        command.count(arguments.plain.len())?;
        (command.run)(&arguments, &view)
    });
    match answer {
        Ok(answer) => tell(&answer, command.name, json),
        Err(failure) => fail(&failure, command.name, json),
    }
}

fn tell(answer: &Answer, command: &'static str, json: bool) -> u8 {
    for note in &answer.notes {
        complain(&format!("note: {note}\n"));
    }
    for failure in &answer.failures {
        complain(&failure.shown(Style::of(&io::stderr())));
    }
    let status = match answer.failures.is_empty() {
        true => answer.status,
        false => FAILED,
    };
    let printed = if json {
        let mut fields = envelope(command, status);
        fields.extend(answer.json.iter().cloned());
        if !answer.failures.is_empty() {
            let errors = answer.failures.iter().map(Failure::json);
            fields.push(("errors", errors.collect()));
        }
        print(format!("{}\n", Json::Object(fields)).as_bytes())
    } else {
        print(&answer.text)
    };
    printed.max(status)
}

fn envelope(command: &str, status: u8) -> Vec<(&'static str, Json)> {
    let command = Some(command.to_string()).filter(|command| !command.is_empty());
    vec![
        ("tugcaphi", env!("CARGO_PKG_VERSION").into()),
        ("command", command.into()),
        ("status", usize::from(status).into()),
    ]
}

/// Says on standard error what went wrong and what to do; other programs get it on standard output too.
fn fail(failure: &Failure, command: &str, json: bool) -> u8 {
    complain(&failure.shown(Style::of(&io::stderr())));
    if json {
        let mut fields = envelope(command, FAILED);
        fields.push(("error", failure.json()));
        print(format!("{}\n", Json::Object(fields)).as_bytes());
    }
    FAILED
}

/// 0, or the status of a standard output that takes no more. A reader that has seen enough is no failure.
fn print(bytes: &[u8]) -> u8 {
    let mut out = io::stdout().lock();
    match out.write_all(bytes).and_then(|()| out.flush()) {
        Err(wrong) if wrong.kind() != ErrorKind::BrokenPipe => {
            let message = format!("standard output cannot be written: {}", told(&wrong));
            let advice = "see where it goes; what was to be done is done, and was not told";
            complain(&Failure::said(message, advice).shown(Style::of(&io::stderr())));
            FAILED
        }
        _ => 0,
    }
}

/// Standard error that takes no more cannot be complained about.
fn complain(text: &str) {
    let _ = io::stderr().write_all(text.as_bytes());
}

fn none() -> Failure {
    Failure::said(
        "there is no command",
        "tugcaphi --help tells all commands; tugcaphi judge TABLE is a good first one",
    )
}

fn unknown(word: &str) -> Failure {
    let near = nearest(word, ALL.iter().map(|command| command.name));
    let advice = match near {
        Some(near) => format!("did you mean {near}? tugcaphi --help tells all commands"),
        None => "tugcaphi --help tells all commands".to_string(),
    };
    Failure::said(format!("there is no command {word}"), advice)
}
