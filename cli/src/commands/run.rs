//! `run`: one rule run on a house file, in place.

use super::{Answer, Command, View, GOOD, NAMES, NO_WAIT, REFUSED};
use crate::arguments::{Arguments, Choice};
use crate::failure::Failure;
use crate::house::Rule;
use crate::input::{self, Content};
use crate::json::Json;
use crate::limits::{BLANKS, UNUSED};
use crate::refused::{self, BadFile};
use crate::replace::{self, Edit, Options, Outcome};
use crate::story::{self, carry_out, Done, Jobs};
use crate::trace::Step;
use crate::words::job_number;
use crate::{labels, reasons, table};
use std::ffi::{OsStr, OsString};
use std::path::{Path, PathBuf};

pub const COMMAND: Command = Command {
    name: "run",
    usage: "FILE RULE NAME..",
    summary: "one rule run on a house file, in place",
    about: "Rule and names are given by number, or by word with --names. A blank that no condition and no step of the\n\
            rule names takes any number from 0 to 255, as a job number. DONE is printed when the new file is on the\n\
            device; at every moment the file is the old one or the new one. A refused run changes nothing, a killed\n\
            one leaves nothing that blocks the next. The file is written first, its log second; where a run is killed\n\
            in between, the next run on the file, with --log or without, adds the step and says so.",
    least: 2,
    most: 2 + BLANKS,
    options: &[
        NAMES,
        Choice {
            long: "--log",
            short: None,
            value: Some("TRACE"),
            help: "append the step, 5 bytes, to this file",
        },
        Choice {
            long: "--dry",
            short: None,
            value: None,
            help: "tell what would be done and change nothing",
        },
        NO_WAIT,
    ],
    run,
};

/// What came of the run, told under the lock.
enum Came {
    BadFile(BadFile),
    Refused(Content, Step, u8, Option<String>),
    Done(Content, Done),
}

fn run(arguments: &Arguments, view: &View) -> Result<Answer, Failure> {
    let path = &arguments.plain[0];
    if path == "-" {
        let advice = "give the path of a house file";
        return Err(Failure::said(
            "run: standard input cannot be changed in place",
            advice,
        ));
    }
    let (came, notes) = match arguments.has("--dry") {
        true => {
            let file = input::bytes(path)?;
            let (_, came) = attempt(&file, arguments);
            (came, Vec::new())
        }
        false => in_place(path, arguments)?,
    };
    let mut answer = told(came?, arguments, view);
    answer.notes = notes;
    Ok(answer)
}

fn in_place(
    path: &OsStr,
    arguments: &Arguments,
) -> Result<(Result<Came, Failure>, Vec<String>), Failure> {
    let options = Options {
        wait: !arguments.has("--no-wait"),
        log: arguments.value("--log").map(PathBuf::from),
    };
    let outcome = replace::edit(Path::new(path), &options, |file| attempt(file, arguments))?;
    Ok(match outcome {
        Outcome::Unchanged { value, notes } | Outcome::Done { value, notes } => (value, notes),
    })
}

/// Runs the rule on a copy of the file.
fn attempt(file: &[u8], arguments: &Arguments) -> (Edit, Result<Came, Failure>) {
    match try_on(file, arguments) {
        Ok((Some(edit), came)) => (edit, Ok(came)),
        Ok((None, came)) => (Edit::Keep, Ok(came)),
        Err(failure) => (Edit::Keep, Err(failure)),
    }
}

fn try_on(file: &[u8], arguments: &Arguments) -> Result<(Option<Edit>, Came), Failure> {
    let path = &arguments.plain[0];
    if table::is_table(file) {
        let advice = "make a house file of it first: tugcaphi make TABLE -o FILE";
        return Err(Failure::said(
            format!("{}: this is a table", input::shown(path)),
            advice,
        ));
    }
    let mut content = match input::content(file, arguments.value("--names"))? {
        Ok(content) => content,
        Err(refusal) => return Ok((None, Came::BadFile(BadFile::new(file, refusal)))),
    };
    let step = step(&arguments.plain[1..], &content)?;
    let mut new = file.to_vec();
    Ok(match carry_out(&mut new, &mut content.house, step) {
        Ok(done) => {
            let log = Some(step.bytes());
            (
                Some(Edit::Write { file: new, log }),
                Came::Done(content, done),
            )
        }
        Err(refusal) => {
            let reason = reasons::reason(&content.house, &content.words, step, refusal);
            (None, Came::Refused(content, step, refusal, reason))
        }
    })
}

/// The rule run that the words say. Whether the names are as many as the rule's blanks, the library says.
fn step(given: &[OsString], content: &Content) -> Result<Step, Failure> {
    let Content { house, words } = content;
    let rule = words.rule_number(&given[0])?;
    let number = usize::from(rule);
    let spare = house.rules.get(number).map_or(Vec::new(), Rule::spare);
    let mut actuals = [UNUSED; BLANKS];
    for (blank, text) in given[1..].iter().enumerate() {
        actuals[blank] = match spare.contains(&blank) {
            true => job_number(text, &words.rules[number].blanks[blank])?,
            false => words.name_number(text)?,
        };
    }
    Ok(Step { rule, actuals })
}

fn told(came: Came, arguments: &Arguments, view: &View) -> Answer {
    let dry = arguments.has("--dry");
    let path = input::shown(&arguments.plain[0]);
    let mut json = vec![("path", path.clone().into()), ("dry", dry.into())];
    match came {
        Came::BadFile(bad) => {
            json.push(("answer", "refused".into()));
            json.extend(bad.json());
            answer(REFUSED, bad.lines(&path, view.style), json)
        }
        Came::Refused(content, step, refusal, reason) => {
            let Content { house, words } = &content;
            let mut text = refused::headline(refusal, view.style);
            text += &format!("  {}\n", story::call(words, &house.rules, step, Jobs::Told));
            text += &reason
                .as_ref()
                .map_or(String::new(), |reason| format!("  {reason}\n"));
            json.push(("answer", "refused".into()));
            json.extend(refused::fields(refusal));
            json.push(("reason", reason.into()));
            json.extend(labels::call(words, &house.rules, step));
            answer(REFUSED, text, json)
        }
        Came::Done(content, done) => {
            let Content { house, words } = &content;
            let head = if dry {
                "DRY RUN, nothing written"
            } else {
                "DONE"
            };
            let text = format!("{}\n{}", view.style.good(head), told_acts(&content, &done));
            json.push(("answer", "done".into()));
            json.extend(labels::did(words, &house.rules, &done));
            answer(GOOD, text, json)
        }
    }
}

/// The rule with its names, the carried rights that it went by, and what each of its operations did.
fn told_acts(content: &Content, done: &Done) -> String {
    let Content { house, words } = content;
    let acts = done.acts.iter().map(|act| story::clause(words, act));
    let call = story::call(words, &house.rules, done.step, Jobs::Told);
    let grounds = story::carrying(words, done).into_iter();
    let lines = [call].into_iter().chain(grounds).chain(acts);
    lines.map(|line| format!("  {line}\n")).collect()
}

fn answer(status: u8, text: String, json: Vec<(&'static str, Json)>) -> Answer {
    Answer {
        status,
        text: text.into_bytes(),
        json,
        ..Answer::default()
    }
}
