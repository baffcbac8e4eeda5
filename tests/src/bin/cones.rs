//! Counts what a reader has to believe of each public promise: the files of definitions that its contract cites, and those that these cite in turn.
//! docs/PROVED.md has the table between two marks; it must be the one that is counted here.

use reference::report::{Arguments, Report};
use std::collections::BTreeSet;
use std::fs;
use std::path::Path;

const CRATES: &str = "../crates";
const PAGE: &str = "../docs/PROVED.md";
const BEGIN: &str = "<!-- cones: counted by tests/run cones -->\n";
const END: &str = "<!-- end of cones -->\n";

/// What is promised, and where: a function of a source file, or all of a file of definitions.
enum Promise {
    Contract(&'static str, &'static str),
    Definitions(&'static str),
}

/// The rows of the table, with their demands.
const ROWS: [(&str, &str, Promise); 11] = [
    (
        "1",
        "`access_check`",
        Promise::Contract("exports/src/lib.rt", "access_check"),
    ),
    (
        "1, 2",
        "`access_run`",
        Promise::Contract("exports/src/lib.rt", "access_run"),
    ),
    (
        "1",
        "`access_replay`",
        Promise::Contract("exports/src/lib.rt", "access_replay"),
    ),
    (
        "1, 3",
        "`access_judge`",
        Promise::Contract("exports/src/lib.rt", "access_judge"),
    ),
    (
        "1, 3",
        "`judge_file`",
        Promise::Contract("safety/src/lib.rt", "judge_file"),
    ),
    (
        "3",
        "`Demand3` alone",
        Promise::Definitions("safety/specs/Demand3.antt"),
    ),
    (
        "1, 3",
        "`access_judge_part`",
        Promise::Contract("exports/src/lib.rt", "access_judge_part"),
    ),
    (
        "1, 3",
        "`access_sheet`",
        Promise::Contract("exports/src/lib.rt", "access_sheet"),
    ),
    (
        "1",
        "`access_need`",
        Promise::Contract("exports/src/lib.rt", "access_need"),
    ),
    (
        "1",
        "`HeldAfter`, `NeverHeld` alone",
        Promise::Definitions("protection/specs/Need.antt"),
    ),
    (
        "1",
        "`listing::answer`",
        Promise::Contract("listing/src/lib.rt", "answer"),
    ),
];

fn read(path: &str) -> String {
    fs::read_to_string(format!("{CRATES}/{path}")).unwrap_or_else(|wrong| panic!("{path}: {wrong}"))
}

/// The file of definitions that an import names, as `crate/specs/File.antt`; none for the kit's libraries and for what the compiler declares.
fn imported(line: &str) -> Option<(String, Vec<String>)> {
    let line = line
        .trim_start_matches("ghost ")
        .trim_start_matches("pub ")
        .strip_prefix("use Rattle.")?;
    let (module, names) = line.split_once(".{").unwrap_or((line, ""));
    // one that is imported whole, under a name
    let module = module.split(" as ").next().unwrap_or(module);
    let (home, file) = module.split_once(".specs.")?;
    if file.starts_with("declared") || !Path::new(CRATES).join(home).exists() {
        return None;
    }
    let names = names
        .split(['}', ','])
        .map(|name| name.trim().to_string())
        .collect();
    Some((format!("{home}/specs/{file}.antt"), names))
}

/// The `ensures` of a function of a source file: all of them, as far as its body.
fn contract(source: &str, function: &str) -> String {
    let head = source
        .find(&format!("fn {function}("))
        .unwrap_or_else(|| panic!("no function {function}"));
    let clause = &source[head..];
    let to = clause.find("\n{\n").expect("a function has a body");
    let from = clause[..to]
        .find("ensures")
        .unwrap_or_else(|| panic!("{function} promises nothing"));
    clause[from..to].to_string()
}

fn is_word(text: &str, name: &str) -> bool {
    text.split(|c: char| !c.is_alphanumeric() && c != '-' && c != '_')
        .any(|word| word == name)
}

fn roots(promise: &Promise) -> Vec<String> {
    match promise {
        Promise::Definitions(file) => vec![file.to_string()],
        Promise::Contract(file, function) => {
            let source = read(file);
            let clause = contract(&source, function);
            let cited = |names: &[String]| names.iter().any(|name| is_word(&clause, name));
            source
                .lines()
                .filter_map(imported)
                .filter(|(_, names)| cited(names))
                .map(|(file, _)| file)
                .collect()
        }
    }
}

/// The files from these roots on, along their imports.
fn cone(roots: Vec<String>) -> BTreeSet<String> {
    let mut seen = BTreeSet::new();
    let mut left = roots;
    while let Some(file) = left.pop() {
        if seen.insert(file.clone()) {
            left.extend(
                read(&file)
                    .lines()
                    .filter_map(imported)
                    .map(|(file, _)| file),
            );
        }
    }
    seen
}

fn row(demand: &str, name: &str, files: &BTreeSet<String>) -> String {
    let lines: usize = files.iter().map(|file| read(file).lines().count()).sum();
    let mut crates: Vec<(String, Vec<String>)> = Vec::new();
    for file in files {
        let (home, rest) = file.split_once("/specs/").expect("a file of definitions");
        let file = rest.trim_end_matches(".antt").to_string();
        match crates.iter_mut().find(|(known, _)| known == home) {
            Some((_, list)) => list.push(file),
            None => crates.push((home.to_string(), vec![file])),
        }
    }
    let crates: Vec<String> = crates
        .iter()
        .map(|(home, list)| format!("`{home}`: {}", list.join(", ")))
        .collect();
    format!("| {demand} | {name} | {} | {lines} |\n", crates.join("; "))
}

fn main() {
    Arguments::read("cones");
    let mut report = Report::default();
    let mut table =
        "| demand | promise | the definitions that it rests on | lines |\n|---|---|---|---:|\n"
            .to_string();
    for (demand, name, promise) in &ROWS {
        table += &row(demand, name, &cone(roots(promise)));
    }
    report.group("the cones of docs/PROVED.md", 1, |group| {
        let page = fs::read_to_string(PAGE).unwrap_or_default();
        let told = page
            .split_once(BEGIN)
            .and_then(|(_, rest)| rest.split_once(END))
            .map(|(told, _)| told);
        group.input(told == Some(table.as_str()), || {
            format!("the table should be\n{table}")
        });
    });
    report.finish();
}
