//! The steps in words against a replay: each line of a printed verdict is read
//! back into numbers, is the step that the judge wrote, and does what it says on
//! the reference's machine; the right comes in at the last step and not sooner.
//! Spare blanks, with the judge's 0, are left out there; in runs and replays they
//! are told.

use super::execute::Folder;
use super::reading::{Effect, Line, Reading, Seen};
use super::wording::Wording;
use reference::desk::BUFFER;
use reference::file;
use reference::generate::{chain, large, likely_run, lively, small, Draft};
use reference::machine::run_file;
use reference::random::Random;
use reference::replay::{replay, LEAK};
use reference::report::{Group, Report};
use reference::table::file as file_of;
use reference::verdict::part;
use std::fs;
use tugcaphi::input::Content;
use tugcaphi::library::{self, Judgement};
use tugcaphi::story::{call, Jobs};
use tugcaphi::terminal::Style;
use tugcaphi::trace::steps;
use tugcaphi::verdict::{judge, text::lines, Verdict};
use tugcaphi::words::{RuleWords, Words};

pub fn run(report: &mut Report, seed: u64) {
    report.group("steps in words of the example tables", 6, |group| {
        let folder = Folder::new("stories").with_examples();
        for entry in fs::read_dir("../tables").expect("the example tables") {
            let path = entry.expect("an example table").path();
            if path.extension().is_none_or(|ending| ending != "table") {
                continue;
            }
            let text = fs::read_to_string(&path).unwrap_or_default();
            let table = tugcaphi::table::read(text.as_bytes()).expect("an example table");
            let name = path.file_name().unwrap_or_default().to_string_lossy();
            let words = ["judge".to_string(), format!("tables/{name}")];
            let said = folder.run(&words, None);
            let printed = String::from_utf8_lossy(&said.out).into_owned();
            let file = file_of(&text).expect("an example table");
            held(group, &table.words, &file, &[], &printed);
        }
    });
    let mut random = Random::new(seed ^ 0x5708);
    report.group("steps in words of random tables", 400, |group| {
        let mut seen = Seen::default();
        for i in 0..400 {
            let draft = single(&mut random, |random| match i % 4 {
                0 => large(random).0,
                1 => chain(random).0,
                2 => small(random),
                _ => lively(random),
            });
            let file = draft.file();
            let wording = Wording::any(&mut random, &draft);
            let (content, verdicts) = contents(&file, &wording, &[]);
            let printed = lines(&content, &verdicts, Style::PLAIN);
            seen.add(held(group, &content.words, &file, &[], &printed));
        }
        group.demand(seen.spare >= 500 && seen.carried >= 200, || {
            format!("steps of rules with spare blanks, by carried rights: {seen:?}")
        });
    });
    report.group("job numbers in words", 4_000, |group| {
        let mut seen = [false; 256];
        while group.inputs < 4_000 {
            let draft = lively(&mut random);
            let file = draft.file();
            let wording = Wording::any(&mut random, &draft);
            jobs(group, &mut random, file, words_of(&wording), &mut seen);
        }
        let unseen = seen.iter().filter(|seen| !**seen).count();
        group.demand(unseen == 0, || format!("{unseen} numbers were not seen"));
    });
}

/// Steps that can be done one after the other, of rules with spare blanks: in
/// words each is the step that it was.
fn jobs(
    group: &mut Group,
    random: &mut Random,
    mut file: Vec<u8>,
    words: Words,
    seen: &mut [bool; 256],
) {
    let reading = Reading::new(&words);
    let house = tugcaphi::house::decode::decode(&file);
    for _ in 0..30 {
        let contents = file::read(&file).expect("an accepted file");
        let (rule, actuals) = likely_run(random, &contents.rules, &contents.matrix);
        let spare = &contents.rules[usize::from(rule)].spare;
        if run_file(&mut file, rule, actuals) != 0 || spare.is_empty() {
            continue;
        }
        let [a, b, c, d] = actuals;
        let step = [rule, a, b, c, d];
        let told = call(&words, &house.rules, steps(&step)[0], Jobs::Told);
        let read = reading.call(&mut Line::new(&told), &contents.rules, Jobs::Told);
        group.input(read == Ok(step), || format!("{read:?}: {told}, {step:?}"));
        for &blank in spare {
            seen[usize::from(actuals[blank])] = true;
        }
    }
}

/// A draft with rules of one step and at most 30 names, as the judge takes it.
pub fn single(random: &mut Random, mut draft: impl FnMut(&mut Random) -> Draft) -> Draft {
    loop {
        let draft = draft(random);
        let short = draft.rules.iter().all(|rule| rule[2] == 1);
        if short && draft.kinds.iter().filter(|&&kind| kind > 0).count() <= 30 {
            return draft;
        }
    }
}

pub fn words_of(wording: &Wording) -> Words {
    let rules = wording.rules.iter().zip(&wording.blanks);
    Words {
        plain: false,
        rights: wording.rights.clone(),
        // Every third name has no word, and is told by its number.
        names: std::array::from_fn(|i| Some(wording.names[i].clone()).filter(|_| i % 3 != 2)),
        rules: rules
            .map(|(rule, blanks)| RuleWords {
                rule: rule.clone(),
                blanks: blanks.clone(),
            })
            .collect(),
    }
}

/// What a file says with these words, and the verdicts on all its rights without
/// these names.
pub fn contents(file: &[u8], wording: &Wording, without: &[u8]) -> (Content, Vec<Verdict>) {
    let content = Content {
        house: tugcaphi::house::decode::decode(file),
        words: words_of(wording),
    };
    let rights: Vec<u8> = (0..file[0]).collect();
    let verdicts = judge(file, &content.house, &rights, without);
    (content, verdicts.expect("steps that can be done"))
}

/// Holds every printed verdict, and which names were left out, to the file. Gives
/// what was seen in its steps.
pub fn held(group: &mut Group, words: &Words, file: &[u8], without: &[u8], printed: &str) -> Seen {
    let reading = Reading::new(words);
    let mut printed = printed;
    if !without.is_empty() {
        let (head, rest) = printed.split_once('\n').unwrap_or((printed, ""));
        let said = left_out(&reading, head, without);
        group.demand(said.is_ok(), || format!("{said:?} in {head}"));
        printed = if said.is_ok() { rest } else { printed };
    }
    let mut verdicts: Vec<Vec<&str>> = Vec::new();
    for line in printed.lines() {
        match line.starts_with("  ") {
            true => verdicts
                .last_mut()
                .expect("a verdict before its steps")
                .push(line),
            false => verdicts.push(vec![line]),
        }
    }
    group.demand(verdicts.len() == usize::from(file[0]), || {
        format!("verdicts: {printed}")
    });
    let mut seen = Seen::default();
    for (right, verdict) in verdicts.iter().enumerate() {
        let said = self::verdict(&reading, right, verdict, file, without);
        group.input(said.is_ok(), || format!("{said:?} in {verdict:?}"));
        seen.add(said.unwrap_or_default());
    }
    seen
}

/// The first line of verdicts without some names has these names.
fn left_out(reading: &Reading, head: &str, without: &[u8]) -> Result<(), String> {
    let mut line = Line::new(head);
    line.expect("Left out, with row and column:")?;
    let told = reading.names(&mut line, "and")?;
    match told == without && line.rest.is_empty() {
        true => Ok(()),
        false => Err(format!("{told:?}, wanted {without:?}")),
    }
}

/// A verdict is the library's, with what is told of it.
fn verdict(
    reading: &Reading,
    right: usize,
    lines: &[&str],
    file: &[u8],
    without: &[u8],
) -> Result<Seen, String> {
    let mut head = Line::new(lines[0]);
    let asked = reading.find(&reading.rights, &head.word()?)?;
    let verdict = head.word()?;
    if asked != right {
        return Err(format!("right {asked} in place of {right}"));
    }
    let mut buffer = vec![0; BUFFER];
    let answer = match without {
        [] => library::judge(file, right as u8, &mut buffer),
        names => library::judge_part(file, right as u8, names, &mut buffer),
    };
    match (verdict.as_str(), answer) {
        ("SAFE", Judgement::Safe(_)) => {
            holding(reading, lines[0], right, file, without).map(|()| Seen::default())
        }
        ("UNSAFE", Judgement::Unsafe(steps)) => {
            let trace = &buffer[..5 * steps as usize];
            leaking(reading, right, &lines[1..], file, trace)
        }
        (verdict, answer) => Err(format!("{verdict}, the library says {answer:?}")),
    }
}

/// The steps are the judge's, each does what is said of it, and the last one leaks.
fn leaking(
    reading: &Reading,
    right: usize,
    lines: &[&str],
    file: &[u8],
    trace: &[u8],
) -> Result<Seen, String> {
    let (last, steps) = lines.split_last().ok_or("no steps")?;
    let told = reading.steps(steps, file)?;
    let mut words = Line::new(last.trim_start());
    words.expect("So")?;
    let came = reading.find(&reading.rights, &words.word()?)?;
    words.expect("comes")?;
    words.expect("into")?;
    let cell = reading.cell(&mut words)?;
    if told.last != Some(Effect::Enter(came, cell.0, cell.1)) || came != right {
        return Err(format!("{:?} is not what came in at the end", told.last));
    }
    let (code, step) = replay(file, &told.trace, right as u8);
    if told.trace != trace || code != LEAK || step as usize + 1 != steps.len() {
        let told = told.trace;
        return Err(format!(
            "replayed {code} at {step}, told {told:?}, trace {trace:?}"
        ));
    }
    Ok(told.seen)
}

/// SAFE tells how many cells of the names that stay hold the right, and with whom
/// no rule is to be run.
fn holding(
    reading: &Reading,
    line: &str,
    right: usize,
    file: &[u8],
    without: &[u8],
) -> Result<(), String> {
    let part =
        file::read(&part(file, without)).map_err(|refusal| format!("a part of {refusal}"))?;
    let cells = part.matrix.cells.iter();
    let count = cells.filter(|&&cell| cell >> right & 1 == 1).count();
    let of = if without.is_empty() {
        ""
    } else {
        " of the others"
    };
    let holders = match count {
        0 => format!("  no cell{of} holds it yet; "),
        1 => format!("  1 cell{of} holds it already; "),
        n => format!("  {n} cells{of} hold it already; "),
    };
    let never = "no run of the rules enters it into a cell that lacks it";
    let Some((_, rest)) = line.split_once(&format!("{holders}{never}")) else {
        return Err(format!("{count} cells hold it: {line}"));
    };
    let mut words = Line::new(rest);
    // Of many names the first few are told here.
    if (1..=10).contains(&without.len()) {
        words.expect(", as long as no rule is run with")?;
        let told = reading.names(&mut words, "or")?;
        if told != without {
            return Err(format!("{told:?}, wanted {without:?}"));
        }
    }
    match without.len() > 10 || words.rest.is_empty() {
        true => Ok(()),
        false => Err(format!("more is told: {}", words.rest)),
    }
}
