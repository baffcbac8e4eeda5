//! Running programs: how long they take, and how many instructions.

use std::fs::{self, File};
use std::io::Read;
use std::path::Path;
use std::process::{self, Command, Stdio};
use std::sync::mpsc;
use std::thread;
use std::time::{Duration, Instant};

/// No count by callgrind takes longer.
const CALLGRIND: Duration = Duration::from_secs(180);

/// A program's end: what it printed, and how long it took; or the time limit.
pub enum Run {
    Ended(Vec<u8>, Duration),
    TooLong,
}

/// Runs a command with its input from a file and its output into one.
pub fn run(command: &mut Command, input: &Path, limit: Duration) -> Run {
    let output = input.with_extension("printed");
    let into = File::create(&output).expect("a file for the output");
    command
        .stdin(File::open(input).expect("the input"))
        .stdout(into)
        .stderr(Stdio::null());
    let begin = Instant::now();
    let mut child = command
        .spawn()
        .unwrap_or_else(|wrong| fail(&format!("{command:?}: {wrong}")));
    // Looking again and again would add its own waits to short runs.
    let (ended, end) = mpsc::channel();
    let number = child.id().to_string();
    let watch = thread::spawn(move || {
        let too_long = end.recv_timeout(limit).is_err();
        if too_long {
            let _ = Command::new("kill").args(["-9", &number]).status();
        }
        too_long
    });
    child.wait().expect("the program's end");
    let took = begin.elapsed();
    let _ = ended.send(());
    if watch.join().expect("the watch") {
        return Run::TooLong;
    }
    let mut printed = Vec::new();
    File::open(&output)
        .and_then(|mut file| file.read_to_end(&mut printed))
        .expect("the output");
    fs::remove_file(&output).expect("removed");
    Run::Ended(printed, took)
}

pub fn fail(wrong: &str) -> ! {
    eprintln!("bench: {wrong}");
    process::exit(1);
}

/// The best of some runs; None past the limit. Prints must be as wanted.
pub fn time(program: &Path, input: &Path, limit: Duration, wanted: &str) -> Option<Duration> {
    let mut best: Option<Duration> = None;
    let mut spent = Duration::ZERO;
    for _ in 0..10 {
        match run(&mut Command::new(program), input, limit) {
            Run::TooLong => return None,
            Run::Ended(printed, took) => {
                if printed != wanted.as_bytes() {
                    let first = |text: &str| text.lines().next().unwrap_or("").to_string();
                    fail(&format!(
                        "{} on {}: printed {}, wanted {}, or another listing",
                        program.display(),
                        input.display(),
                        first(&String::from_utf8_lossy(&printed)),
                        first(wanted)
                    ));
                }
                best = Some(best.map_or(took, |best| best.min(took)));
                spent += took;
                if spent > Duration::from_secs(1) {
                    break;
                }
            }
        }
    }
    best
}

/// The instructions that callgrind counts; None past its limit.
pub fn instructions(program: &Path, word: Option<&str>, input: &Path) -> Option<u64> {
    let counts = input.with_extension("callgrind");
    let mut command = Command::new("valgrind");
    command
        .arg("--tool=callgrind")
        .arg(format!("--callgrind-out-file={}", counts.display()))
        .arg(program)
        .args(word);
    match run(&mut command, input, CALLGRIND) {
        Run::TooLong => None,
        Run::Ended(..) => {
            let text = fs::read_to_string(&counts).unwrap_or_default();
            let _ = fs::remove_file(&counts);
            let total = text.lines().find_map(|line| {
                line.strip_prefix("summary: ")
                    .or(line.strip_prefix("totals: "))
            });
            let total = total.and_then(|words| words.split_whitespace().next()?.parse().ok());
            Some(total.unwrap_or_else(|| fail("callgrind gave no count")))
        }
    }
}

pub fn seconds(time: Duration) -> String {
    format!("{:.4}", time.as_secs_f64())
}

pub fn over(limit: Duration) -> String {
    format!(">{}", limit.as_secs())
}

/// Counts in millions.
pub fn millions(count: u64) -> String {
    format!("{:.2}", count as f64 / 1e6)
}

pub fn times(more: f64, less: f64) -> String {
    format!("{:.0}", more / less)
}
