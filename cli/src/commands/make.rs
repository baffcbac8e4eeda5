//! `make`: the house file of a table.

use super::{Answer, Command, View, FORCE, GOOD, NO_WAIT, REFUSED};
use crate::arguments::{Arguments, Choice};
use crate::count::count;
use crate::failure::Failure;
use crate::input;
use crate::output::{self, Manner};
use crate::refused::BadFile;
use crate::table::Table;
use std::ffi::OsStr;

pub const COMMAND: Command = Command {
    name: "make",
    usage: "TABLE -o FILE",
    summary: "the house file of a table",
    about: "Reads the table strictly: whatever could be misread is an error with its line and column. The bytes\n\
            are read back by another way and compared with what the table said before anything is written.\n\
            With -o - the file goes to standard output. docs/TABLES.md tells how a table is written.",
    least: 1,
    most: 1,
    options: &[
        Choice {
            long: "--output",
            short: Some("-o"),
            value: Some("FILE"),
            help: "the file to write",
        },
        FORCE,
        NO_WAIT,
    ],
    run,
};

fn run(arguments: &Arguments, view: &View) -> Result<Answer, Failure> {
    let path = &arguments.plain[0];
    let output_path = arguments.value("--output").ok_or_else(|| {
        let advice = "write tugcaphi make TABLE -o FILE";
        Failure::said("make: where to write the file is not said", advice)
    })?;
    let table = input::read_table(&input::bytes(path)?, path)?;
    let (file, refusal) = input::made(&table, path)?;
    if refusal != 0 {
        return Ok(refused(&file, refusal, path, view));
    }
    if output_path == "-" {
        return to_standard_output(file, arguments.has("--json"), view);
    }
    let manner = Manner {
        force: arguments.has("--force"),
        wait: !arguments.has("--no-wait"),
    };
    let notes = output::write(output_path, &file, &manner)?;
    let mut answer = told(&table, file.len(), output_path);
    answer.notes = notes;
    Ok(answer)
}

fn told(table: &Table, bytes: usize, output: &OsStr) -> Answer {
    let house = &table.house;
    let (subjects, names) = (house.matrix.subjects().len(), house.matrix.names().len());
    let text = format!(
        "made {}: {}, {}, {}, {}; {bytes} bytes\n",
        input::shown(output),
        count(house.rights, "right"),
        count(subjects, "subject"),
        count(names - subjects, "object"),
        count(house.rules.len(), "rule"),
    );
    Answer {
        status: GOOD,
        text: text.into_bytes(),
        json: vec![
            ("answer", "made".into()),
            ("path", input::shown(output).into()),
            ("bytes", bytes.into()),
            ("rights", house.rights.into()),
            ("subjects", subjects.into()),
            ("objects", (names - subjects).into()),
            ("rules", house.rules.len().into()),
        ],
        ..Answer::default()
    }
}

fn to_standard_output(file: Vec<u8>, json: bool, view: &View) -> Result<Answer, Failure> {
    if json || view.columns.is_some() {
        let message = match json {
            true => "make: --json takes standard output too",
            false => "make: a house file is not for a terminal",
        };
        return Err(Failure::said(message, "write the file with -o FILE"));
    }
    Ok(Answer {
        status: GOOD,
        text: file,
        ..Answer::default()
    })
}

/// The format lets no such table through, so this would be a fault of the program; nothing is written all the same.
fn refused(file: &[u8], refusal: u8, path: &OsStr, view: &View) -> Answer {
    let bad = BadFile::new(file, refusal);
    let mut json = vec![("answer", "refused".into())];
    json.extend(bad.json());
    Answer {
        status: REFUSED,
        text: bad.lines(&input::shown(path), view.style).into_bytes(),
        json,
        ..Answer::default()
    }
}
