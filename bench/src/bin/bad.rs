//! Looks for accepted files on which the judge is slow. Arguments: a seed, the number
//! of candidates, and the folder that the ten slowest are written into. `README.md`
//! tells what is tried and what is printed.

use bench::families::known;
use bench::judging::{child, Cost, Judge, CHILD};
use bench::lines::{Candidate, Lines, Member};
use bench::measure::{fail, instructions, millions, seconds};
use bench::notation;
use reference::random::Random;
use std::env;
use std::fs;
use std::path::{Path, PathBuf};
use std::sync::Mutex;
use std::thread;
use std::time::{Duration, Instant};

/// Candidates that are judged before one of them is kept.
const BATCH: u64 = 50;
/// A line is printed, and the slowest are written, after so many.
const TOLD: u64 = 1_000;
/// So many are counted by callgrind, of each line so many.
const COUNTED: usize = 16;
const OF_A_LINE: usize = 3;
const WORST: usize = 10;

fn main() {
    let words: Vec<String> = env::args().skip(1).collect();
    if words == [CHILD] {
        child().unwrap_or_else(|wrong| fail(&wrong.to_string()));
        return;
    }
    let (seed, number, folder) = match words.as_slice() {
        [seed, number, folder] => match (seed.parse(), number.parse()) {
            (Ok(seed), Ok(number)) => (seed, number, PathBuf::from(folder)),
            _ => fail("seed and number of candidates are numbers"),
        },
        _ => fail("three arguments: seed, number of candidates, folder"),
    };
    fs::create_dir_all(&folder).expect("the folder");
    let lines = search(seed, number, &folder);
    let worst = counted(&lines, &folder);
    println!("| file | from | bytes | steps | seconds | M |");
    println!("|---|---|---:|---:|---:|---:|");
    for (place, (line, member, count)) in worst.iter().take(WORST).enumerate() {
        let name = written(&folder, place, member);
        println!(
            "| {name} | {line} | {} | {} | {} | {} |",
            member.table.0.file().len(),
            member.steps,
            seconds(member.time),
            count.map_or("-".to_string(), millions),
        );
    }
}

/// The search; BAD_SECONDS ends it sooner.
fn search(seed: u64, number: u64, folder: &Path) -> Lines {
    let most = env::var("BAD_SECONDS").map_or(u64::MAX, |text| {
        text.parse()
            .unwrap_or_else(|_| fail("BAD_SECONDS is a number of seconds"))
    });
    let begin = Instant::now();
    let mut random = Random::new(seed);
    let mut judges: Vec<Judge> = Vec::new();
    for _ in 0..thread::available_parallelism().map_or(1, usize::from) {
        let started = Judge::start();
        judges.push(started.unwrap_or_else(|wrong| fail(&wrong.to_string())));
    }
    let known = known();
    let mut lines = Lines::new(known.iter().map(|sample| sample.name.clone()));
    let first = known.into_iter().enumerate();
    let first = first.map(|(line, sample)| lines.first(line, (sample.draft, sample.right)));
    let mut batch: Vec<Candidate> = first.collect();
    loop {
        let costs = judge_all(&mut judges, &batch);
        for (candidate, cost) in batch.drain(..).zip(costs) {
            lines.judged(candidate, cost);
        }
        let left = number.saturating_sub(lines.tried).min(BATCH);
        let ended = left == 0 || begin.elapsed().as_secs() >= most;
        if ended || lines.tried % TOLD < BATCH {
            tell(&lines, begin.elapsed());
            for (place, (_, member)) in lines.slowest(OF_A_LINE).into_iter().enumerate() {
                if place < WORST {
                    written(folder, place, member);
                }
            }
        }
        if ended {
            return lines;
        }
        // Each has numbers of its own, however many others take.
        let mut one = || lines.next(&mut Random::new(random.word()));
        batch.extend((0..left).map(|_| one()));
    }
}

/// The costs of all candidates, in their order.
fn judge_all(judges: &mut [Judge], batch: &[Candidate]) -> Vec<Cost> {
    let next = Mutex::new(0);
    let costs = Mutex::new(vec![Cost::Refused; batch.len()]);
    thread::scope(|scope| {
        for judge in judges {
            scope.spawn(|| loop {
                let place = {
                    let mut next = next.lock().expect("no panic");
                    *next += 1;
                    *next - 1
                };
                let Some(candidate) = batch.get(place) else {
                    return;
                };
                let cost = judge.cost(&candidate.table, candidate.dull);
                let cost = cost.unwrap_or_else(|wrong| fail(&wrong.to_string()));
                costs.lock().expect("no panic")[place] = cost;
            });
        }
    });
    costs.into_inner().expect("no panic")
}

fn tell(lines: &Lines, took: Duration) {
    let slowest = lines.slowest(1);
    let told = slowest
        .iter()
        .take(3)
        .map(|(line, member)| format!("{line} {} s, {} steps", seconds(member.time), member.steps));
    println!(
        "{} tried in {} s, {} refused, {} stopped; slowest found: {}",
        lines.tried,
        took.as_secs(),
        lines.refused,
        lines.stopped,
        told.collect::<Vec<_>>().join("; ")
    );
}

/// The slowest by instructions, which a busy machine does not change; what callgrind
/// does not finish comes first.
fn counted<'a>(lines: &'a Lines, folder: &Path) -> Vec<(&'a str, &'a Member, Option<u64>)> {
    let press = env::current_exe().expect("a path").with_file_name("press");
    let input = folder.join("counted");
    let count = |bytes: &[u8]| {
        fs::write(&input, bytes).expect("written");
        instructions(&press, Some("judge"), &input)
    };
    let start = count(&[]).unwrap_or_else(|| fail("callgrind takes too long"));
    let slowest = lines.slowest(OF_A_LINE).into_iter().take(COUNTED);
    let mut all: Vec<_> = slowest
        .map(|(line, member)| {
            let (draft, right) = &member.table;
            let count = count(&[vec![*right], draft.file()].concat());
            (line, member, count.map(|count| count.saturating_sub(start)))
        })
        .collect();
    all.sort_by_key(|(_, _, count)| std::cmp::Reverse(count.unwrap_or(u64::MAX)));
    all
}

/// Writes a file: what the desk program reads, and its notation.
fn written(folder: &Path, place: usize, member: &Member) -> String {
    let name = format!("{:02}", place + 1);
    let (draft, right) = &member.table;
    let input = [vec![*right], draft.file()].concat();
    fs::write(folder.join(&name), input).expect("written");
    let text = notation::write(draft, *right);
    fs::write(folder.join(format!("{name}.txt")), text).expect("written");
    name
}
