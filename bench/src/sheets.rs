//! A sheet of eight rights beside eight calls of the judge.

use crate::families::Sample;
use crate::measure::millions;
use crate::pressing::{Pressing, Question};
use crate::pruned;
use crate::table::Table;
use reference::file;

/// What is to be reached: no more than the single calls take, on each file.
pub const REACHED: &str = "a sheet needs no more than single calls of the judge";
const FAMILIES: [&str; 3] = ["typical", "large", "chain"];
const RIGHTS: u8 = 8;

/// Prints the table; the answer is what was not reached.
pub fn print(pressing: &Pressing, samples: &[Sample]) -> Vec<String> {
    let mut missed = Vec::new();
    println!("| file             | unsafe | steps | 8 calls M |   sheet M | times |");
    println!("|---|---:|---:|---:|---:|---:|");
    let held_to = |sample: &&Sample| FAMILIES.contains(&sample.family);
    for sample in samples.iter().filter(held_to) {
        let bytes = sample.draft.file();
        let table = Table::new(&file::read(&bytes).expect("an accepted file"));
        // All rights of the file, and again from the first.
        let rights: Vec<u8> = (0..RIGHTS).map(|i| i % sample.draft.rights).collect();
        let answers = rights.iter().map(|right| pruned::judge(&table, 1 << right));
        let answers: Vec<(bool, usize)> = answers
            .map(|answer| (answer.is_unsafe, answer.steps.len()))
            .collect();
        let told = answers.iter().map(|(is_unsafe, steps)| {
            let verdict = if *is_unsafe { "UNSAFE" } else { "SAFE" };
            format!("{verdict} {steps}")
        });
        let wanted = told.collect::<Vec<String>>().join(", ") + "\n";
        let path = pressing.folder.join(format!("{}.sheet", sample.name));
        let [singles, sheet] = ["singles", "sheet"].map(|word| {
            let question = Question {
                word,
                input: [vec![RIGHTS], rights.clone(), bytes.clone()].concat(),
                wanted: wanted.clone(),
                empty: "\n",
            };
            pressing.count(&question, &path)
        });
        let times = sheet as f64 / singles as f64;
        println!(
            "| {:<16} | {:>6} | {:>5} | {:>9} | {:>9} | {times:>5.2} |",
            sample.name,
            answers.iter().filter(|(is_unsafe, _)| *is_unsafe).count(),
            answers.iter().map(|(_, steps)| steps).sum::<usize>(),
            millions(singles),
            millions(sheet),
        );
        if sheet > singles {
            missed.push(format!("{}: {times:.3} times single calls", sample.name));
        }
    }
    missed
}
