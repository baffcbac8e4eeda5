//! The desk program of before, which took a byte for a cell and for what a right
//! carries, beside this one, on files with the same contents.

use crate::families::Sample;
use crate::measure::{fail, instructions, millions, time};
use reference::file::Set;
use reference::generate::{joined, Draft};
use std::fs;
use std::path::{Path, PathBuf};
use std::time::Duration;

/// What is to be reached: at most so many times the instructions of before, on each
/// file.
const TIMES: f64 = 1.15;
pub const REACHED: &str = "at most 1.15 times the instructions of before";
/// More rights a byte has no bit for.
const RIGHTS: u8 = 8;

pub struct Programs<'a> {
    pub folder: &'a Path,
    pub before: &'a Path,
    pub now: &'a Path,
    pub limit: Duration,
}

/// The draft's file in the format of before, where that has the rights.
pub fn file(draft: &Draft) -> Option<Vec<u8>> {
    let bytes = |sets: &[Set]| -> Option<Vec<u8>> {
        sets.iter().map(|&set| u8::try_from(set).ok()).collect()
    };
    let mut sections = draft.sections();
    sections[1] = bytes(&draft.cells)?;
    sections[2] = bytes(&draft.carries)?;
    (draft.rights <= RIGHTS).then(|| joined(draft.rights, &sections))
}

/// Prints the table; the answer is what was not reached.
pub fn print(programs: &Programs, samples: &[Sample]) -> Vec<String> {
    let mut missed = Vec::new();
    println!("| file             | answer | steps |  before M |     now M | times |");
    println!("|---|---|---:|---:|---:|---:|");
    for sample in samples {
        let Some(of_before) = file(&sample.draft) else {
            continue;
        };
        let (answer, wanted) = sample.answer();
        let count = |program: &Path, file: &[u8], ending: &str| {
            let input = programs.folder.join(format!("{}{ending}", sample.name));
            programs.count(program, &[&[sample.right], file].concat(), &input, &wanted)
        };
        let before = count(programs.before, &of_before, "-before");
        let now = count(programs.now, &sample.draft.file(), "");
        let times = now as f64 / before as f64;
        println!(
            "| {:<16} | {:<6} | {:>5} | {:>9} | {:>9} | {times:>5.2} |",
            sample.name,
            if answer.is_unsafe { "UNSAFE" } else { "SAFE" },
            answer.steps.len(),
            millions(before),
            millions(now),
        );
        if times > TIMES {
            missed.push(format!("{}: {times:.3} times those of before", sample.name));
        }
    }
    missed
}

impl Programs<'_> {
    /// The instructions of a program on an input, of which it must print what is
    /// wanted, without those of its start.
    fn count(&self, program: &Path, input: &[u8], path: &PathBuf, wanted: &str) -> u64 {
        let counted = |input: &[u8], wanted: &str| {
            fs::write(path, input).expect("written");
            if time(program, path, self.limit, wanted).is_none() {
                fail(&format!("{}: takes too long", path.display()));
            }
            instructions(program, None, path).unwrap_or_else(|| fail("callgrind takes too long"))
        };
        let start = counted(&[], "REFUSED 1\n");
        counted(input, wanted).saturating_sub(start).max(1)
    }
}
