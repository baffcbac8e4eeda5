//! What a press needs, and the judge without anybody left out, beside the judge's
//! rounds: of questions that take the very steps of the judge, so that the counts
//! can be divided.

use crate::families::Sample;
use crate::measure::{fail, instructions, millions, run, Run};
use crate::pruned;
use crate::table::{Answer, Kind, Table};
use reference::file;
use reference::generate::{Draft, DELETE};
use std::fs;
use std::path::{Path, PathBuf};
use std::process::Command;
use std::time::Duration;

/// What is to be reached: at most so many times the judge's rounds, on each file.
const TIMES: f64 = 1.2;
pub const REACHED: &str =
    "a press, and the judge of a part, need at most 1.2 times the judge's rounds";
const FAMILIES: [&str; 2] = ["large", "chain"];
/// The lists: one cell, and as many as there may be.
const LISTS: [usize; 2] = [1, 8];

pub struct Pressing {
    pub folder: PathBuf,
    /// The program that makes one call.
    pub press: PathBuf,
    pub limit: Duration,
}

/// A right in a cell: right, subject, name.
type Cell = [u8; 3];

/// A question to the program: its word, its input, and what it must print; what
/// it prints of the empty input, too, whose instructions are taken off.
pub struct Question {
    pub word: &'static str,
    pub input: Vec<u8>,
    pub wanted: String,
    pub empty: &'static str,
}

const EMPTY: &str = "REFUSED 1\n";

/// Prints the table; the answer is what was not reached.
pub fn print(pressing: &Pressing, samples: &[Sample]) -> Vec<String> {
    let mut missed = Vec::new();
    println!(
        "| file             | press | steps |   judge M |    part M | times | 1 cell M | times | 8 cells M | times |"
    );
    println!("|---|---|---:|---:|---:|---:|---:|---:|---:|---:|");
    let held_to = |sample: &&Sample| FAMILIES.contains(&sample.family);
    for sample in samples.iter().filter(held_to) {
        let draft = without_deletes(&sample.draft);
        let contents = file::read(&draft.file()).expect("an accepted file");
        let table = Table::new(&contents);
        let answer = pruned::judge(&table, 1 << sample.right);
        let Some(cells) = cells(&table, &answer, sample.right) else {
            println!(
                "| {:<16} | -     | the right comes to a new name alone",
                sample.name
            );
            continue;
        };
        let counts = pressing.counts(sample, &draft, &answer, &cells);
        let times = |count: u64| count as f64 / counts[0] as f64;
        println!(
            "| {:<16} | {:<5} | {:>5} | {:>9} | {:>9} | {:>5.2} | {:>8} | {:>5.2} | {:>9} | {:>5.2} |",
            sample.name,
            if answer.is_unsafe { "HELD" } else { "NEVER" },
            answer.steps.len(),
            millions(counts[0]),
            millions(counts[1]),
            times(counts[1]),
            millions(counts[2]),
            times(counts[2]),
            millions(counts[3]),
            times(counts[3]),
        );
        for (count, what) in counts[1..].iter().zip(["part", "1 cell", "8 cells"]) {
            if times(*count) > TIMES {
                missed.push(format!(
                    "{}, {what}: {:.2} times the judge's rounds",
                    sample.name,
                    times(*count)
                ));
            }
        }
    }
    missed
}

/// Rounds pass deletes by; without them the judge has no closing search, and
/// what it costs is its rounds.
fn without_deletes(draft: &Draft) -> Draft {
    let mut draft = draft.clone();
    draft.rules.retain(|rule| rule[rule.len() - 4] != DELETE);
    draft
}

/// Eight cells after which the rounds end where the judge's do, the deciding one
/// last: that of the judge's last step, or one that is never held. None where
/// the last step is in a cell of a new name.
fn cells(table: &Table, answer: &Answer, right: u8) -> Option<Vec<Cell>> {
    let start = &table.start;
    let there = |cell: &Cell| {
        start.kinds[usize::from(cell[1])] == 2 && start.kinds[usize::from(cell[2])] > 0
    };
    let entered: Vec<Cell> = answer
        .steps
        .iter()
        .filter_map(|(rule, actuals)| {
            let rule = &table.rules[usize::from(*rule)];
            let right = rule.bit.trailing_zeros() as u8;
            let enter = rule.kind == Kind::Enter;
            enter.then(|| [right, actuals[rule.first], actuals[rule.second]])
        })
        .collect();
    let deciding = match answer.is_unsafe {
        true => *entered.last()?,
        false => never(table, &entered, right)?,
    };
    // Those that are held first: from then on all eight are looked at after each step.
    let others = entered
        .iter()
        .filter(|cell| there(cell) && **cell != deciding);
    let mut cells: Vec<Cell> = others.take(LISTS[1] - 1).copied().collect();
    cells.push(deciding);
    there(&deciding).then_some(cells)
}

/// The last cell of the start that neither holds the right nor comes to hold it.
fn never(table: &Table, entered: &[Cell], right: u8) -> Option<Cell> {
    let start = &table.start;
    let pairs = (0..32u8).flat_map(|s| (0..32u8).map(move |o| [right, s, o]));
    let lacks = |cell: &Cell| {
        let (s, o) = (usize::from(cell[1]), usize::from(cell[2]));
        let there = start.kinds[s] == 2 && start.kinds[o] > 0;
        there && !start.has(s, o, 1 << right) && !entered.contains(cell)
    };
    pairs.filter(lacks).last()
}

impl Pressing {
    /// Instructions of the judge, of the judge without anybody left out and of each
    /// list, without those of the start.
    fn counts(&self, sample: &Sample, draft: &Draft, answer: &Answer, cells: &[Cell]) -> Vec<u64> {
        let steps = answer.steps.len();
        let (verdict, held) = match answer.is_unsafe {
            true => ("UNSAFE", "HELD"),
            false => ("SAFE", "NEVER"),
        };
        let judged = |word| Question {
            word,
            input: [vec![sample.right], draft.file()].concat(),
            wanted: format!("{verdict} {steps}\n"),
            empty: EMPTY,
        };
        let mut questions = vec![judged("judge"), judged("part")];
        for count in LISTS {
            let list = cells[cells.len() - count..].concat();
            questions.push(Question {
                word: "need",
                input: [vec![count as u8], list, draft.file()].concat(),
                wanted: format!("{held} {steps}\n"),
                empty: EMPTY,
            });
        }
        let path = self.folder.join(format!("{}.press", sample.name));
        let count = |question: &Question| self.count(question, &path);
        questions.iter().map(count).collect()
    }

    pub fn count(&self, question: &Question, path: &Path) -> u64 {
        let start = Question {
            input: Vec::new(),
            wanted: question.empty.to_string(),
            ..*question
        };
        let begun = self.counted(&start, path);
        self.counted(question, path).saturating_sub(begun).max(1)
    }

    fn counted(&self, question: &Question, path: &Path) -> u64 {
        fs::write(path, &question.input).expect("written");
        let mut command = Command::new(&self.press);
        command.arg(question.word);
        match run(&mut command, path, self.limit) {
            Run::Ended(printed, _) if printed == question.wanted.as_bytes() => {}
            Run::Ended(printed, _) => fail(&format!(
                "press {} on {}: printed {}, wanted {}",
                question.word,
                path.display(),
                String::from_utf8_lossy(&printed),
                question.wanted
            )),
            Run::TooLong => fail("a call takes too long"),
        }
        instructions(&self.press, Some(question.word), path)
            .unwrap_or_else(|| fail("callgrind takes too long"))
    }
}
