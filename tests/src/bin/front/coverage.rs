//! What the transcripts must have shown: every command with every exit status
//! it has, every mistake of the table reader, every refusal that the program can
//! meet, and answers for programs that are as the schema says.

use super::json::{self, Value};
use super::schema::Schema;
use super::transcripts::{Shown, Told};
use reference::report::{Group, Report};
use std::collections::BTreeSet;
use std::fs;
use tugcaphi::table::mistake::Code;

/// The exit statuses that each command has, and with an option that asks another
/// question. A table that is read makes no file that is refused, so `make` has no
/// 2 here; `back` has it.
const STATUSES: [(&str, &[i32]); 8] = [
    ("make", &[0, 3]),
    ("show", &[0, 2, 3]),
    ("check", &[0, 2, 3]),
    ("judge", &[0, 1, 2, 3]),
    ("judge --without", &[0, 1, 2, 3]),
    ("need", &[0, 1, 2, 3]),
    ("run", &[0, 2, 3]),
    ("replay", &[0, 1, 2, 3]),
];

/// The judge's buffer is always long enough, and a sheet never too long: no 24
/// and no 43.
const REFUSALS: [u8; 20] = [
    1, 2, 3, 4, 5, 6, 7, 8, 9, 11, 12, 14, 15, 21, 22, 23, 31, 41, 42, 44,
];

pub fn run(report: &mut Report, shown: &Shown) {
    report.group("every command with every exit status", 27, |group| {
        statuses(group, shown)
    });
    report.group("what went wrong comes with what to do", 150, |group| {
        for told in shown.told.iter().filter(|told| told.said.status == 3) {
            let err = String::from_utf8_lossy(&told.said.err);
            let hint = |line: &str| line.trim_start().starts_with("= hint: ");
            group.input(err.lines().any(hint), || format!("{:?}: {err}", told.words));
        }
    });
    report.group("every mistake of the table reader", 38, |group| {
        mistakes(group, shown)
    });
    report.group("every refusal that the program can meet", 20, |group| {
        refusals(group, shown)
    });
    let answers = answers(shown);
    report.group("answers for programs are as the schema says", 20, |group| {
        valid(group, &answers)
    });
    report.group("every sort of answer for programs", 26, |group| {
        sorts(group, &answers)
    });
}

fn statuses(group: &mut Group, shown: &Shown) {
    for (command, statuses) in STATUSES {
        for &status in statuses {
            let seen = |told: &Told| is(told, command) && told.said.status == status;
            group.input(shown.told.iter().any(seen), || {
                format!("no transcript has {command} with status {status}")
            });
        }
    }
}

/// Whether a command line begins with the command and has its options.
fn is(told: &Told, command: &str) -> bool {
    let mut words = command.split(' ');
    let first = told.words.first().map(String::as_str);
    let has = |option: &str| told.words.iter().any(|word| word == option);
    first == words.next() && words.all(has)
}

fn mistakes(group: &mut Group, shown: &Shown) {
    let read = shown.files.iter().map(|file| tugcaphi::table::read(file));
    let mistakes = read.filter_map(|table| table.err());
    let seen: BTreeSet<&str> = mistakes.map(|mistake| mistake.code.word()).collect();
    for code in Code::ALL {
        group.input(seen.contains(code.word()), || {
            format!("no transcript has a table with the mistake {}", code.word())
        });
    }
}

fn refusals(group: &mut Group, shown: &Shown) {
    for refusal in REFUSALS {
        let text = format!("REFUSED {refusal}");
        let padded = format!("REFUSED  {refusal}: ");
        let seen = |told: &Told| {
            let out = String::from_utf8_lossy(&told.said.out);
            let headed = out
                .match_indices(&text)
                .any(|(at, _)| !out[at + text.len()..].starts_with(|c: char| c.is_ascii_digit()));
            headed || out.contains(&padded)
        };
        group.input(shown.told.iter().any(seen), || {
            format!("no transcript is refused with {refusal}")
        });
    }
}

/// What every answer for programs can be, by its command.
const ANSWERS: [(&str, &[&str]); 8] = [
    ("make", &["made", "error"]),
    ("show", &["shown", "refused", "error"]),
    ("check", &["accepted", "refused", "failed"]),
    ("judge", &["safe", "unsafe", "refused", "error"]),
    ("judge --without", &["safe", "unsafe", "refused"]),
    ("need", &["held", "never", "refused", "error"]),
    ("run", &["done", "refused", "error"]),
    ("replay", &["no leak", "leak", "refused", "error"]),
];

type Answers<'a> = Vec<(&'a Told, Result<Value, String>)>;

/// What commands with --json printed.
fn answers(shown: &Shown) -> Answers<'_> {
    let asked = |told: &&Told| {
        let mut options = told.words.iter().take_while(|word| *word != "--");
        options.any(|word| word == "--json")
    };
    let told = shown.told.iter().filter(asked);
    told.map(|told| (told, json::parse(&String::from_utf8_lossy(&told.said.out))))
        .collect()
}

fn valid(group: &mut Group, answers: &Answers) {
    let schema = fs::read_to_string("../docs/tugcaphi.schema.json").unwrap_or_default();
    let schema = match json::parse(&schema) {
        Ok(schema) => Schema::new(schema),
        Err(wrong) => return group.demand(false, || format!("the schema: {wrong}")),
    };
    for (told, answer) in answers {
        let checked = answer.clone().and_then(|answer| schema.check(&answer));
        group.input(checked.is_ok(), || format!("{:?}: {checked:?}", told.words));
        let status = answer.as_ref().ok().and_then(|answer| answer.get("status"));
        let wanted = Value::Number(told.said.status as u64);
        group.demand(status == Some(&wanted), || {
            format!("{:?}: status {status:?}", told.words)
        });
    }
}

fn sorts(group: &mut Group, answers: &Answers) {
    for (command, sorts) in ANSWERS {
        let of = answers.iter().filter(|(told, _)| is(told, command));
        let given = of.filter_map(|(_, answer)| answer.as_ref().ok());
        let seen: Vec<String> = given.flat_map(sorts_of).collect();
        for sort in sorts {
            group.input(seen.iter().any(|one| one == sort), || {
                format!("no transcript has {command} --json with {sort}")
            });
        }
    }
}

/// The words in an answer that say how it came out.
fn sorts_of(answer: &Value) -> Vec<String> {
    let mut sorts = Vec::new();
    if answer.get("error").is_some() {
        sorts.push("error".to_string());
    }
    let lists = ["files", "verdicts", "replays"];
    let parts = lists.iter().filter_map(|list| answer.get(list));
    let parts = parts.flat_map(|list| list.list());
    for part in parts.chain([answer]) {
        for field in ["answer", "verdict", "replay"] {
            sorts.extend(part.get(field).and_then(Value::text).map(String::from));
        }
    }
    sorts
}
