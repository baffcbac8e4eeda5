//! `judge`: can a right come into a cell that lacks it, and by which steps.

use super::{
    about, put, put_trace, trace, Answer, Command, View, FORCE, GOOD, LEAK, NAMES, REFUSED,
};
use crate::arguments::{Arguments, Choice};
use crate::failure::Failure;
use crate::input::Content;
use crate::picture;
use crate::report;
use crate::verdict::{self, json, text, Ruling, Verdict};
use std::ffi::OsString;

pub const COMMAND: Command = Command {
    name: "judge",
    usage: "FILE|TABLE [RIGHT..]",
    summary: "safe or unsafe: can a right come into a cell that lacks it, and how",
    about: "Each right that is given, or every right, gets its verdict from the proved judge. Safe: no run of the\n\
            rules, however long, enters the right into a cell that lacks it. Unsafe: the steps of one way are told, of\n\
            perhaps many. The judge takes rules of one step and at most 30 names. Exit status 1 for unsafe.\n\
            With --without it judges the table without some names, their rows and columns: those of an office, say,\n\
            that is trusted and may grant everything anyway. Safe then holds as long as no rule is run with one of\n\
            them; unsafe holds with them there too.",
    least: 1,
    most: usize::MAX,
    options: &[
        NAMES,
        Choice {
            long: "--without",
            short: None,
            value: Some("NAME,.."),
            help: "leave out these names, which are trusted, with their rows and columns",
        },
        trace("write the judge's steps, 5 bytes each; for one right"),
        Choice {
            long: "--svg",
            short: None,
            value: Some("OUT"),
            help: "write a picture of the verdicts",
        },
        Choice {
            long: "--report",
            short: None,
            value: Some("OUT"),
            help: "write one HTML page: grid, verdicts, steps and pictures",
        },
        FORCE,
    ],
    run,
};

fn run(arguments: &Arguments, view: &View) -> Result<Answer, Failure> {
    about(arguments, view, |input, content| {
        let without = match arguments.value("--without") {
            Some(names) => content.words.name_numbers(names)?,
            None => Vec::new(),
        };
        let rights = asked(&arguments.plain[1..], content)?;
        let verdicts = verdict::judge(&input.file, &content.house, &rights, &without)?;
        if arguments.has("--trace") && verdicts.len() != 1 {
            let advice = "name the right: tugcaphi judge TABLE RIGHT --trace OUT";
            return Err(Failure::said(
                "judge: --trace takes the steps of one right",
                advice,
            ));
        }
        let mut answer = Answer {
            status: verdicts.iter().map(status).max().unwrap_or(GOOD),
            text: text::lines(content, &verdicts, view.style).into_bytes(),
            json: vec![("input", input.json())],
            ..Answer::default()
        };
        answer
            .json
            .extend(json::fields(content, &without, &verdicts));
        if let [verdict] = verdicts.as_slice() {
            put_trace(&mut answer, &COMMAND, arguments, &verdict.trace);
        }
        put(&mut answer, &COMMAND, arguments, "--svg", || {
            picture::svg(&input.path, content, &verdicts).into_bytes()
        });
        put(&mut answer, &COMMAND, arguments, "--report", || {
            report::page(&input.path, content, &verdicts).into_bytes()
        });
        Ok(answer)
    })
}

/// The rights that are given, or every right.
fn asked(given: &[OsString], content: &Content) -> Result<Vec<u8>, Failure> {
    match given {
        [] => Ok((0..content.house.rights as u8).collect()),
        _ => {
            let rights = given.iter();
            rights
                .map(|right| content.words.right_number(right))
                .collect()
        }
    }
}

fn status(verdict: &Verdict) -> u8 {
    match verdict.ruling {
        Ruling::Safe(_) => GOOD,
        Ruling::Unsafe(_) => LEAK,
        Ruling::Refused(_) => REFUSED,
    }
}
