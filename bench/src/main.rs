//! Runs the desk program, the plain loops and, where there is one, a solver of
//! logic programs on the benchmark's tables and prints one table, a second one of
//! what a press needs, and a third of sheets. `README.md` tells how to read them.
//!
//! Arguments: the folder to write into, the desk program, the plain program, and
//! the one that makes a single call.

use bench::families::{all, known, Sample};
use bench::measure::{fail, instructions, millions, over, run, seconds, time, times, Run};
use bench::pressing::{self, Pressing};
use bench::table::Answer;
use bench::{before, logic, sheets};
use reference::file;
use std::collections::BTreeMap;
use std::env;
use std::fs;
use std::path::{Path, PathBuf};
use std::process::{Command, Stdio};
use std::time::Duration;

const SEED: u64 = 20_260_101;

/// Callgrind takes some sixty times as long: what takes longer than `LONG` is
/// counted for rounds that take `SHORT` together.
const LONG: Duration = Duration::from_millis(100);
const SHORT: Duration = Duration::from_millis(30);

/// What is to be reached: so many times fewer instructions than the plain loops
/// on these families, no file longer, and each ahead of the solver.
const FEWER: u64 = 300;
const HELD_TO: [&str; 3] = ["large", "wide", "chain"];
const LONGEST: Duration = Duration::from_millis(500);

struct Bench {
    folder: PathBuf,
    plain: PathBuf,
    limit: Duration,
    solver: Option<&'static str>,
}

impl Bench {
    /// The solver's time; its verdict must be the judge's.
    fn solve(
        &self,
        sample: &Sample,
        contents: &file::Contents,
        is_unsafe: bool,
    ) -> (String, Option<Duration>) {
        let Some(solver) = self.solver else {
            return ("-".to_string(), None);
        };
        let path = self.folder.join(format!("{}.lp", sample.name));
        fs::write(&path, logic::program(contents, sample.right)).expect("written");
        let mut command = Command::new(solver);
        command.arg(if solver == "gringo" {
            "--text"
        } else {
            "--verbose=0"
        });
        command.arg(&path);
        match run(&mut command, &path, self.limit) {
            Run::TooLong => (over(self.limit), Some(self.limit)),
            Run::Ended(printed, took) => {
                let text = String::from_utf8_lossy(&printed).into_owned();
                let found = text.lines().any(|line| line == "leak" || line == "leak.");
                if found != is_unsafe {
                    fail(&format!("{solver} on {}: leak {found}", path.display()));
                }
                (seconds(took), Some(took))
            }
        }
    }

    /// The plain loops' instructions, and a mark if they are told by the first
    /// rounds: a round costs about the same as the next one.
    fn plain_count(
        &self,
        input: &Path,
        answer: &Answer,
        took: Option<Duration>,
    ) -> (Option<u64>, &'static str) {
        if took.is_some_and(|took| took < LONG) {
            return (instructions(&self.plain, None, input), "");
        }
        // How long a round takes, by the first five.
        let mut command = Command::new(&self.plain);
        command.arg("5");
        let Run::Ended(_, five) = run(&mut command, input, self.limit) else {
            return (None, "");
        };
        let rounds = 5.0 * SHORT.as_secs_f64() / five.as_secs_f64();
        let rounds = (rounds.ceil() as u64).min(answer.rounds);
        let count = instructions(&self.plain, Some(&rounds.to_string()), input);
        (count.map(|count| count * answer.rounds / rounds), "~")
    }
}

const HEAD: [&str; 12] = [
    "file", "bytes", "answer", "rounds", "steps", "desk s", "plain s", "times", "desk M",
    "plain M", "times", "solver s",
];

fn print_row(cells: &[String]) {
    let widths = [16, 5, 6, 6, 5, 8, 9, 6, 9, 11, 7, 8];
    let mut line = String::from("|");
    for (place, (cell, width)) in cells.iter().zip(widths).enumerate() {
        if place == 0 || place == 2 {
            line += &format!(" {cell:<width$} |");
        } else {
            line += &format!(" {cell:>width$} |");
        }
    }
    println!("{line}");
}

fn has(samples: &[Sample], family: &str) -> bool {
    samples.iter().any(|sample| sample.family == family)
}

/// All tables; those known to be slow alone, where no others are asked for.
fn samples_of(families: &[&str]) -> Vec<Sample> {
    let known = known();
    let mut asked = families.iter();
    if !families.is_empty() && asked.all(|family| has(&known, family)) {
        return known;
    }
    all(SEED)
}

fn main() {
    let words: Vec<PathBuf> = env::args_os().skip(1).map(PathBuf::from).collect();
    let [folder, desk, plain, press] = words.as_slice() else {
        fail("four arguments: folder, desk program, plain program, press program");
    };
    let limit = env::var("BENCH_LIMIT").map_or(60, |text| {
        text.parse()
            .unwrap_or_else(|_| fail("BENCH_LIMIT is a number of seconds"))
    });
    let solver = ["clingo", "gringo"].into_iter().find(|solver| {
        let mut command = Command::new(solver);
        command.arg("--version").stdout(Stdio::null());
        command.status().is_ok_and(|status| status.success())
    });
    fs::create_dir_all(folder).expect("the folder");
    let bench = Bench {
        folder: folder.clone(),
        plain: plain.clone(),
        limit: Duration::from_secs(limit),
        solver,
    };

    println!(
        "seed {SEED}, limit {limit} s, solver {}",
        solver.unwrap_or("none")
    );
    let pressing = Pressing {
        folder: folder.clone(),
        press: press.clone(),
        limit: bench.limit,
    };
    let only = env::var("BENCH_ONLY").unwrap_or_default();
    let families: Vec<&str> = only.split(',').filter(|word| !word.is_empty()).collect();
    let samples = samples_of(&families);
    match only.as_str() {
        "press" => return tell(pressing::print(&pressing, &samples), pressing::REACHED),
        "sheet" => return tell(sheets::print(&pressing, &samples), sheets::REACHED),
        "before" => {
            let Some(program) = env::var_os("BENCH_BEFORE").map(PathBuf::from) else {
                fail("BENCH_BEFORE is the desk program of before");
            };
            let programs = before::Programs {
                folder,
                before: &program,
                now: desk,
                limit: bench.limit,
            };
            return tell(before::print(&programs, &samples), before::REACHED);
        }
        _ => {}
    }
    for family in &families {
        if !has(&samples, family) {
            fail(&format!("BENCH_ONLY: no family {family}"));
        }
    }
    let is_asked = |sample: &&Sample| families.is_empty() || families.contains(&sample.family);
    // What starting takes: the empty input.
    let empty = folder.join("empty");
    fs::write(&empty, []).expect("written");
    let mut starts = Vec::new();
    for program in [desk, plain] {
        let Some(took) = time(program, &empty, bench.limit, "REFUSED 1\n") else {
            fail("an empty input takes too long");
        };
        let Some(count) = instructions(program, None, &empty) else {
            fail("callgrind takes too long");
        };
        starts.push(count);
        println!(
            "start of {}: {} s, {count} instructions",
            program.display(),
            seconds(took)
        );
    }

    print_row(&HEAD.map(String::from));
    println!("|---|---:|---|---:|---:|---:|---:|---:|---:|---:|---:|---:|");
    let mut missed = Vec::new();
    let mut sums: BTreeMap<&str, (u64, u64)> = BTreeMap::new();
    for sample in samples.iter().filter(is_asked) {
        let bytes = sample.draft.file();
        let contents = file::read(&bytes).expect("an accepted file");
        let (answer, wanted) = sample.answer();
        let input = folder.join(&sample.name);
        fs::write(&input, [vec![sample.right], bytes.clone()].concat()).expect("written");

        let desk_time = time(desk, &input, bench.limit, &wanted);
        let plain_time = time(plain, &input, bench.limit, &wanted);
        let desk_count = desk_time.and_then(|_| instructions(desk, None, &input));
        let (plain_count, about) = bench.plain_count(&input, &answer, plain_time);
        let desk_count = desk_count.map(|count| count.saturating_sub(starts[0]).max(1));
        let plain_count = plain_count.map(|count| count.saturating_sub(starts[1]).max(1));

        let bound = if plain_time.is_none() { ">" } else { "" };
        let faster = desk_time.map(|desk| {
            let plain = plain_time.unwrap_or(bench.limit);
            plain.as_secs_f64() / desk.as_secs_f64()
        });
        let fewer = desk_count
            .zip(plain_count)
            .map(|(desk, plain)| times(plain as f64, desk as f64));
        let shown = |time: Option<Duration>| time.map_or_else(|| over(bench.limit), seconds);
        let none = || "-".to_string();
        let (solver_time, solved) = bench.solve(sample, &contents, answer.is_unsafe);
        print_row(&[
            sample.name.clone(),
            bytes.len().to_string(),
            if answer.is_unsafe { "UNSAFE" } else { "SAFE" }.to_string(),
            answer.rounds.to_string(),
            answer.steps.len().to_string(),
            shown(desk_time),
            shown(plain_time),
            faster.map_or_else(none, |faster| format!("{bound}{faster:.0}")),
            desk_count.map_or_else(none, millions),
            plain_count.map_or_else(none, |count| format!("{about}{}", millions(count))),
            fewer
                .as_ref()
                .map_or_else(none, |fewer| format!("{about}{fewer}")),
            solver_time,
        ]);

        // What is to be reached.
        if HELD_TO.contains(&sample.family) {
            let (Some(desk), Some(plain)) = (desk_count, plain_count) else {
                fail(&format!("{}: no count of instructions", sample.name));
            };
            let sums = sums.entry(sample.family).or_insert((0, 0));
            sums.0 += desk;
            sums.1 += plain;
            if plain < FEWER * desk {
                missed.push(format!(
                    "{}: {} times fewer instructions",
                    sample.name,
                    times(plain as f64, desk as f64)
                ));
            }
        }
        if desk_time.is_none_or(|desk| desk > LONGEST) {
            missed.push(format!("{}: more than {LONGEST:?}", sample.name));
        }
        if solved.is_some_and(|solver| desk_time.is_none_or(|desk| desk >= solver)) {
            missed.push(format!("{}: behind the solver", sample.name));
        }
    }
    for (family, (desk, plain)) in &sums {
        println!(
            "{family}: {} times fewer instructions in all",
            times(*plain as f64, *desk as f64)
        );
        if *plain < FEWER * *desk {
            missed.push(format!("{family} in all: less than {FEWER} times"));
        }
    }
    let all_of =
        format!("{FEWER} times fewer instructions on {HELD_TO:?}; no file over {LONGEST:?}");
    tell(missed, &all_of);
    if !families.is_empty() {
        return;
    }
    println!();
    tell(pressing::print(&pressing, &samples), pressing::REACHED);
    println!();
    tell(sheets::print(&pressing, &samples), sheets::REACHED);
}

/// What was not reached, or that all was.
fn tell(missed: Vec<String>, all: &str) {
    if missed.is_empty() {
        println!("reached: {all}");
    }
    for line in missed {
        println!("missed: {line}");
    }
}
