//! Test groups, their lines of output, the counts, and the arguments that all
//! test programs take.

use std::fmt::Write;

pub const SEED: u64 = 20_260_101;

/// `[self] [seed] [number]`: `self` puts the second implementation in the
/// verified library's place.
pub struct Arguments {
    pub own: bool,
    pub seed: u64,
    pub number: Option<u64>,
}

impl Arguments {
    pub fn read(program: &str) -> Arguments {
        let mut arguments = Arguments {
            own: false,
            seed: SEED,
            number: None,
        };
        let mut numbers = Vec::new();
        for word in std::env::args().skip(1) {
            if word == "self" {
                arguments.own = true;
            } else if let Ok(number) = word.parse() {
                numbers.push(number);
            } else {
                eprintln!("{program}: not a number: {word}");
                std::process::exit(2);
            }
        }
        if let Some(&seed) = numbers.first() {
            arguments.seed = seed;
        }
        arguments.number = numbers.get(1).copied();
        let place = if arguments.own { ", self" } else { "" };
        println!("{program}: seed {}{place}", arguments.seed);
        arguments
    }
}

/// A named group of inputs of the same sort.
pub struct Group {
    pub inputs: u64,
    failures: u64,
    first: Option<String>,
}

impl Group {
    /// Counts an input and whether it went well.
    pub fn input(&mut self, good: bool, describe: impl FnOnce() -> String) {
        self.inputs += 1;
        self.demand(good, describe);
    }

    /// A demand that counts no input.
    pub fn demand(&mut self, good: bool, describe: impl FnOnce() -> String) {
        if !good {
            self.failures += 1;
            if self.first.is_none() {
                self.first = Some(describe());
            }
        }
    }
}

#[derive(Default)]
pub struct Report {
    passed: u64,
    failed: u64,
}

impl Report {
    /// Runs a group; fewer inputs than `minimum` fail it.
    pub fn group(&mut self, name: &str, minimum: u64, body: impl FnOnce(&mut Group)) {
        let mut group = Group {
            inputs: 0,
            failures: 0,
            first: None,
        };
        body(&mut group);
        let inputs = group.inputs;
        group.demand(inputs >= minimum.max(1), || {
            format!("only {inputs} inputs, at least {minimum} are needed")
        });
        match group.first {
            None => {
                self.passed += 1;
                println!("{name}: {inputs} inputs, ok");
            }
            Some(first) => {
                self.failed += 1;
                println!(
                    "{name}: {inputs} inputs, FAILED {} times, first: {first}",
                    group.failures
                );
            }
        }
    }

    /// The last line, and the exit status.
    pub fn finish(self) -> ! {
        println!("{} passed, {} failed", self.passed, self.failed);
        std::process::exit(if self.failed == 0 { 0 } else { 1 });
    }
}

/// How often each answer was seen.
pub struct Counts {
    seen: [u64; 256],
}

impl Default for Counts {
    fn default() -> Counts {
        Counts { seen: [0; 256] }
    }
}

impl Counts {
    pub fn add(&mut self, answer: u8) {
        self.seen[answer as usize] += 1;
    }

    pub fn print(&self, title: &str) {
        let mut line = format!("{title}:");
        for (answer, &count) in self.seen.iter().enumerate() {
            if count > 0 {
                write!(line, " {answer}: {count};").unwrap();
            }
        }
        println!("{}", line.trim_end_matches(';'));
    }

    /// Demands that each of the answers was seen often enough.
    pub fn demand(&self, group: &mut Group, answers: &[u8], minimum: u64) {
        for &answer in answers {
            let count = self.seen[answer as usize];
            group.input(count >= minimum, || {
                format!("answer {answer} seen {count} times, at least {minimum} are needed")
            });
        }
    }
}

/// Bytes in hexadecimal, runs of one byte shortened.
pub fn hex(bytes: &[u8]) -> String {
    let mut text = String::new();
    let mut at = 0;
    while at < bytes.len() {
        let run = bytes[at..].iter().take_while(|&&b| b == bytes[at]).count();
        if run > 4 {
            write!(text, "({:02x} x {run})", bytes[at]).unwrap();
            at += run;
        } else {
            write!(text, "{:02x}", bytes[at]).unwrap();
            at += 1;
        }
    }
    format!("[{} bytes: {text}]", bytes.len())
}
