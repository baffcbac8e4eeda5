//! The examples in the docs: a block ```` ```table NAME ```` is a file, a block
//! ```` ```console ```` has commands and what they print, in an empty folder with
//! copies of the example tables.

use super::execute::{Folder, Said};
use reference::report::{Group, Report};
use std::fs;

const PAGES: [&str; 4] = [
    "docs/USING.md",
    "docs/TABLES.md",
    "docs/JSON.md",
    "tables/README.md",
];

pub fn run(report: &mut Report) {
    report.group("the first verdict of README.md", 4, first_verdict);
    for page in PAGES {
        report.group(&format!("examples of {page}"), 1, |group| {
            let text = fs::read_to_string(format!("../{page}")).unwrap_or_default();
            let folder = Folder::new("blocks").with_examples();
            let mut lines = text.lines();
            let mut status = 0;
            while let Some(line) = lines.next() {
                let Some(info) = line.strip_prefix("```") else {
                    continue;
                };
                let body = lines.by_ref().take_while(|line| *line != "```");
                let block: String = body.map(|line| format!("{line}\n")).collect();
                match info.split_once(' ') {
                    Some(("table", name)) => folder.write(name, block.as_bytes()),
                    None if info == "console" => console(group, &block, &folder, &mut status),
                    _ => {}
                }
            }
        });
    }
}

/// README has the first lines of a verdict, which the program must print so.
fn first_verdict(group: &mut Group) {
    let folder = Folder::new("readme").with_examples();
    let words = ["judge", "tables/vermilion.table"].map(String::from);
    let said = folder.run(&words, None);
    let printed = String::from_utf8_lossy(&said.out).into_owned();
    let text = fs::read_to_string("../README.md").unwrap_or_default();
    let block = text
        .lines()
        .skip_while(|line| !line.starts_with("    own "));
    let block = block.take_while(|line| line.starts_with("    ") && *line != "    ..");
    for (line, wanted) in block.zip(printed.lines()) {
        group.input(&line[4..] == wanted, || {
            format!("{line:?}, the program prints {wanted:?}")
        });
    }
}

fn console(group: &mut Group, block: &str, folder: &Folder, status: &mut i32) {
    let mut lines = block.lines().peekable();
    while let Some(line) = lines.next() {
        let Some(command) = line.strip_prefix("$ ") else {
            return group.demand(false, || format!("no command: {line}"));
        };
        let mut wanted = String::new();
        while let Some(line) = lines.next_if(|line| !line.starts_with("$ ")) {
            wanted += &format!("{line}\n");
        }
        let Some(given) = carried_out(command, folder, status) else {
            return group.demand(false, || format!("no command that can be tried: {command}"));
        };
        group.input(given == wanted, || {
            format!("{command}: wanted {wanted:?}, given {given:?}")
        });
    }
}

/// What a command prints, on standard output and standard error.
fn carried_out(command: &str, folder: &Folder, status: &mut i32) -> Option<String> {
    let words: Vec<String> = command.split_whitespace().map(String::from).collect();
    if command == "echo $?" {
        return Some(format!("{status}\n"));
    }
    if words[0] != "tugcaphi" {
        return None;
    }
    let place = words.iter().position(|word| word == "<");
    let input = place.and_then(|place| words.get(place + 1)).cloned();
    let end = place.unwrap_or(words.len());
    let Said {
        out,
        err,
        status: ended,
    } = folder.run(&words[1..end], input.as_deref());
    *status = ended;
    let all = [out, err].concat();
    Some(String::from_utf8_lossy(&all).into_owned())
}
