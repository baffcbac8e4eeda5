//! `check`: does the proved reader accept a file, and where does it break the format.

use super::{Answer, Command, View, GOOD, REFUSED};
use crate::arguments::Arguments;
use crate::failure::Failure;
use crate::input::{self, Input};
use crate::json::Json;
use crate::refused::BadFile;
use std::ffi::OsStr;

pub const COMMAND: Command = Command {
    name: "check",
    usage: "FILE..",
    summary: "accepted, or refused: by which number, what it means and where",
    about: "Each file is accepted or refused by the proved reader. The place (section, rule, byte offset, what\n\
            stands there and what may) is found beside it and is left out where the two disagree.\n\
            Of a table the file made of it is checked.",
    least: 1,
    most: usize::MAX,
    options: &[],
    run,
};

fn run(arguments: &Arguments, view: &View) -> Result<Answer, Failure> {
    let mut answer = Answer::default();
    let mut files = Vec::new();
    for path in &arguments.plain {
        match input::read(path, None) {
            Ok(input) => {
                let (status, text, json) = one(&input, view);
                answer.status = answer.status.max(status);
                answer.text.extend(text.into_bytes());
                files.push(json);
            }
            Err(failure) => {
                files.push(unread(path, &failure));
                answer.failures.push(failure);
            }
        }
    }
    answer.json = vec![("files", Json::List(files))];
    Ok(answer)
}

fn unread(path: &OsStr, failure: &Failure) -> Json {
    let input = vec![("path", input::shown(path).into()), ("kind", Json::Null)];
    Json::Object(vec![
        ("input", Json::Object(input)),
        ("answer", "failed".into()),
        ("error", failure.json()),
    ])
}

fn one(input: &Input, view: &View) -> (u8, String, Json) {
    let mut json = vec![("input", input.json())];
    match &input.content {
        Ok(_) => {
            json.push(("answer", "accepted".into()));
            let accepted = view.style.good("accepted");
            (
                GOOD,
                format!("{}: {accepted}\n", input.path),
                Json::Object(json),
            )
        }
        Err(refusal) => {
            let bad = BadFile::new(&input.file, *refusal);
            json.push(("answer", "refused".into()));
            json.extend(bad.json());
            let text = bad.listed(&input.path, view.style);
            (REFUSED, text, Json::Object(json))
        }
    }
}
