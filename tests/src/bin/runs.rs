//! Compares the verified library's rule runs and replays with the reference.

#[path = "../boundary/replay.rs"]
mod boundary_replay;
#[path = "../boundary/run.rs"]
mod boundary_run;

use reference::carried::{self, Played};
use reference::damage::{plant, Fault};
use reference::file::{self, Contents, Rule, RIGHTS};
use reference::generate::*;
use reference::machine::{numbers, run, run_file, write_matrix};
use reference::random::Random;
use reference::replay::{replay, LEAK};
use reference::report::{hex, Arguments, Counts, Group, Report};
use reference::{second, twelve};

/// File, trace and right to the answer and the step.
type Replay = fn(&[u8], &[u8], u8) -> (u8, u64);

/// What stood in the spare blanks of rule runs that were carried out.
#[derive(Default)]
struct Jobs {
    seen: Counts,
    /// Rule runs with one, two and three spare blanks.
    runs: [u64; 3],
}

impl Jobs {
    fn add(&mut self, rule: &Rule, actuals: &[u8]) {
        for &blank in &rule.spare {
            self.seen.add(actuals[blank]);
        }
        if let Some(last) = rule.spare.len().checked_sub(1) {
            self.runs[last] += 1;
        }
    }

    /// Each byte often enough, and each number of spare blanks.
    fn demand(&self, group: &mut Group, each: u64, runs: u64) {
        let bytes: Vec<u8> = (0..=255).collect();
        self.seen.demand(group, &bytes, each);
        for (count, &seen) in (1..).zip(&self.runs) {
            group.input(seen >= runs, || {
                format!("only {seen} carried out with {count} spare blanks")
            });
        }
    }
}

/// The functions under test, how often each answer was seen, and what spare
/// blanks got.
struct Library {
    run: fn(&mut [u8], u8, [u8; 4]) -> u8,
    replay: Replay,
    runs: Counts,
    replays: Counts,
    run_jobs: Jobs,
    replay_jobs: Jobs,
}

impl Library {
    /// Compares one rule run over the whole file; the file is left as the
    /// reference leaves it.
    fn compare_run(
        &mut self,
        group: &mut Group,
        file: &mut Vec<u8>,
        rule: u8,
        actuals: [u8; 4],
    ) -> u8 {
        let before = file.clone();
        let mut other = file.clone();
        let wanted = run_file(file, rule, actuals);
        let given = (self.run)(&mut other, rule, actuals);
        self.runs.add(wanted);
        if wanted == 0 {
            let contents = file::read(&before).unwrap();
            self.run_jobs.add(&contents.rules[rule as usize], &actuals);
        }
        group.input(given == wanted && other == *file, || {
            format!(
                "answer {given}, reference {wanted}, bytes {}, rule {rule}, actuals {actuals:?}, on {}",
                if other == *file { "alike" } else { "different" },
                hex(&before)
            )
        });
        wanted
    }

    fn compare_replay(
        &mut self,
        group: &mut Group,
        file: &[u8],
        trace: &[u8],
        right: u8,
    ) -> (u8, u64) {
        let (file_before, trace_before) = (file.to_vec(), trace.to_vec());
        let wanted = replay(file, trace, right);
        let given = (self.replay)(file, trace, right);
        self.replays.add(wanted.0);
        let carried_out = match wanted {
            (0, _) => trace.len() / 5,
            (LEAK, step) => step as usize + 1,
            (_, step) => step as usize,
        };
        if carried_out > 0 {
            let rules = file::read(file).unwrap().rules;
            for step in trace.chunks_exact(5).take(carried_out) {
                self.replay_jobs.add(&rules[step[0] as usize], &step[1..]);
            }
        }
        group.input(given == wanted, || {
            format!(
                "answer {given:?}, reference {wanted:?}, right {right}, trace {}, on {}",
                hex(trace),
                hex(file)
            )
        });
        group.demand(file == file_before && trace == trace_before, || {
            format!(
                "lent bytes changed, right {right}, file was {}",
                hex(&file_before)
            )
        });
        wanted
    }

    /// The answer and the file left, as they are written down.
    fn by_hand(&mut self, group: &mut Group, cases: Vec<Played>) {
        for case in cases {
            let mut file = case.draft.file();
            let trace = case.trace.concat();
            let answer = self.compare_replay(group, &file, &trace, case.right);
            for &[rule, actuals @ ..] in &case.trace {
                self.compare_run(group, &mut file, rule, actuals);
            }
            group.demand(answer == case.answer && file == case.file_after(), || {
                format!("{}: {answer:?}, left {}", case.what, hex(&file))
            });
        }
    }
}

/// The actuals with other bytes in the rule's spare blanks.
fn other_jobs(random: &mut Random, rule: &Rule, mut actuals: [u8; 4]) -> [u8; 4] {
    for &blank in &rule.spare {
        actuals[blank] = job_number(random);
    }
    actuals
}

/// A file with a fault that the reader refuses.
fn wrong_file(random: &mut Random, draft: &Draft) -> Vec<u8> {
    let fault = Fault::any(random, draft.rules.len());
    let file = plant(random, draft, &[fault]);
    assert!(file::check(&file) != 0);
    file
}

/// Lets the file's matrix come to where a run of its rules leads.
fn settle(random: &mut Random, file: &mut [u8], contents: &mut Contents) {
    for _ in 0..random.below(30) {
        let (rule, actuals) = likely_run(random, &contents.rules, &contents.matrix);
        let done = run(
            &contents.matrix,
            &contents.rules,
            u64::from(rule),
            numbers(actuals),
        );
        if let Ok(done) = done {
            contents.matrix = done.after;
        }
    }
    write_matrix(file, &contents.matrix);
}

/// A right and how it was chosen: by chance, the one that leaks last, or one
/// that does not leak.
fn choose_right(random: &mut Random, file: &[u8], contents: &Contents, trace: &[u8]) -> u8 {
    let rights = contents.rights;
    let by_chance = random.below(rights as usize) as u8;
    if random.percent(25) {
        return by_chance;
    }
    let leaks: Vec<(u8, u64)> = (0..rights)
        .filter_map(|right| match replay(file, trace, right) {
            (LEAK, step) => Some((right, step)),
            _ => None,
        })
        .collect();
    if random.percent(50) {
        let last = leaks.iter().max_by_key(|leak| leak.1);
        return last.map_or(by_chance, |leak| leak.0);
    }
    let without: Vec<u8> = (0..rights)
        .filter(|right| leaks.iter().all(|leak| leak.0 != *right))
        .collect();
    if without.is_empty() {
        by_chance
    } else {
        random.pick(&without)
    }
}

fn main() {
    let arguments = Arguments::read("runs");
    let mut library = Library {
        run: if arguments.own {
            second::run
        } else {
            boundary_run::run
        },
        replay: if arguments.own {
            second::replay
        } else {
            boundary_replay::replay
        },
        runs: Counts::default(),
        replays: Counts::default(),
        run_jobs: Jobs::default(),
        replay_jobs: Jobs::default(),
    };
    let mut random = Random::new(arguments.seed);
    let random = &mut random;
    let mut report = Report::default();

    report.group(
        "rule runs, one after the other on a file",
        120_000,
        |group| {
            while group.inputs < 120_000 {
                let mut file = lively(random).file();
                for _ in 0..60 {
                    let contents = file::read(&file).unwrap();
                    let (rule, actuals) = likely_run(random, &contents.rules, &contents.matrix);
                    library.compare_run(group, &mut file, rule, actuals);
                }
            }
        },
    );

    report.group("any rule runs on any files", 60_000, |group| {
        while group.inputs < 60_000 {
            let mut file = any(random).file();
            let contents = file::read(&file).unwrap();
            for _ in 0..20 {
                let (rule, actuals) = any_run(random, &contents.rules);
                library.compare_run(group, &mut file, rule, actuals);
            }
        }
    });

    report.group(
        "the same name created and destroyed in one rule",
        40_000,
        |group| {
            let mut done = 0;
            while group.inputs < 40_000 {
                let mut file = turbulent(random).file();
                for _ in 0..40 {
                    let contents = file::read(&file).unwrap();
                    let rule = random.below(contents.rules.len()) as u8;
                    let mut actuals = [255; 4];
                    for blank in 0..contents.rules[rule as usize].blanks {
                        actuals[blank] = random.pick(&[0, 1, 29, 30, 31]);
                    }
                    if library.compare_run(group, &mut file, rule, actuals) == 0 {
                        done += 1;
                    }
                }
            }
            group.demand(done >= 4_000, || format!("only {done} carried out"));
        },
    );

    report.group("actuals at and past the limits", 30_000, |group| {
        // In other positions than spare blanks, and in spare blanks.
        let mut altered = [0; 2];
        while group.inputs < 30_000 {
            let mut file = lively(random).file();
            let contents = file::read(&file).unwrap();
            for _ in 0..10 {
                // One position of a run that may well be carried out.
                let (rule, mut actuals) = likely_run(random, &contents.rules, &contents.matrix);
                let position = random.below(4);
                actuals[position] = random.pick(&[0, 30, 31, 32, 33, 63, 64, 128, 254, 255]);
                let answer = library.compare_run(group, &mut file, rule, actuals);
                let of = &contents.rules[rule as usize];
                let spare = of.spare.contains(&position);
                let wrong = match position < of.blanks {
                    true => actuals[position] > 31 && !spare,
                    false => actuals[position] != 255,
                };
                group.demand((answer == 12) == wrong, || {
                    format!("{answer} with {actuals:?}, position {position} altered")
                });
                altered[usize::from(spare)] += 1;
            }
            let (_, actuals) = likely_run(random, &contents.rules, &contents.matrix);
            for rule in [contents.rules.len() as u8, 32, 33, 253, 254, 255] {
                library.compare_run(group, &mut file, rule, actuals);
            }
        }
        let [others, spare] = altered;
        group.demand(others >= 10_000 && spare >= 2_000, || {
            format!("only {others} positions altered, and {spare} spare blanks")
        });
    });

    report.group("a spare blank takes any byte", 40_000, |group| {
        let mut runs = [0; 3];
        while group.inputs < 40_000 {
            let mut file = lively(random).file();
            let contents = file::read(&file).unwrap();
            let (rule, mut actuals) = likely_run(random, &contents.rules, &contents.matrix);
            let of = &contents.rules[rule as usize];
            let Some(last) = of.spare.len().checked_sub(1) else {
                continue;
            };
            let blank = random.pick(&of.spare);
            // Of refused runs fewer: the byte must not matter there either.
            let wanted = run_file(&mut file.clone(), rule, actuals);
            if wanted != 0 && !random.percent(5) {
                continue;
            }
            runs[last] += u64::from(wanted == 0);
            let before = file.clone();
            let mut after: Option<Vec<u8>> = None;
            for byte in 0..=255 {
                actuals[blank] = byte;
                let answer = library.compare_run(group, &mut file, rule, actuals);
                let alike = after.as_ref().is_none_or(|after| *after == file);
                group.demand(answer == wanted && alike, || {
                    format!(
                        "{answer}, not {wanted}, or other bytes, with {actuals:?}, on {}",
                        hex(&before)
                    )
                });
                after.get_or_insert_with(|| file.clone());
                file.copy_from_slice(&before);
            }
        }
        println!("  done: {runs:?} with one, two and three spare blanks");
        for (count, done) in (1..).zip(runs) {
            group.demand(done >= 10, || {
                format!("only {done} with {count} spare blanks")
            });
        }
    });

    report.group(
        "rule runs that differ in spare blanks alone",
        20_000,
        |group| {
            let mut done = 0;
            while group.inputs < 20_000 {
                let mut file = lively(random).file();
                for _ in 0..20 {
                    let contents = file::read(&file).unwrap();
                    let (rule, actuals) = likely_run(random, &contents.rules, &contents.matrix);
                    let of = &contents.rules[rule as usize];
                    if of.spare.is_empty() {
                        continue;
                    }
                    let (mut one, mut other) = (file.clone(), file.clone());
                    let others = other_jobs(random, of, actuals);
                    let answers = [
                        (library.run)(&mut one, rule, actuals),
                        (library.run)(&mut other, rule, others),
                    ];
                    group.demand(answers[0] == answers[1] && one == other, || {
                        format!(
                            "{answers:?} with {actuals:?} and {others:?} on {}",
                            hex(&file)
                        )
                    });
                    done += u64::from(library.compare_run(group, &mut file, rule, others) == 0);
                }
            }
            group.demand(done >= 5_000, || format!("only {done} carried out"));
        },
    );

    report.group("rule runs on wrong files", 10_000, |group| {
        while group.inputs < 10_000 {
            let draft = lively(random);
            let contents = file::read(&draft.file()).unwrap();
            let mut file = wrong_file(random, &draft);
            let (rule, actuals) = if random.percent(50) {
                likely_run(random, &contents.rules, &contents.matrix)
            } else {
                any_run(random, &contents.rules)
            };
            library.compare_run(group, &mut file, rule, actuals);
        }
    });

    report.group("P9 and P10", 2, |group| {
        let mut p9 = Draft::empty(1);
        p9.kinds[0] = 2;
        let mut p10 = p9.clone();
        p9.rules.push(rule(
            2,
            &[],
            &[
                [ENTER, 0, 0, 1],
                [DESTROY_SUBJECT, 0, 0, 0],
                [ENTER, 0, 1, 1],
            ],
        ));
        p10.rules.push(rule(1, &[], &[[CREATE_SUBJECT, 0, 0, 0]]));
        for (draft, actuals) in [(p9, [0, 0, 255, 255]), (p10, [0, 255, 255, 255])] {
            let mut file = draft.file();
            let wanted = library.compare_run(group, &mut file, 0, actuals);
            group.demand(wanted == 15, || format!("reference {wanted}, not 15"));
        }
    });

    report.group("rights that carry: runs by hand", 24, |group| {
        library.by_hand(group, carried::played());
    });

    report.group("twelve rights: runs by hand", 180, |group| {
        library.by_hand(group, twelve::played());
    });

    report.group("44 before all else, in replay with step 0", 300, |group| {
        for mut file in carried::wrong() {
            for (trace, right) in [(&[][..], 0), (&[0, 0, 255, 255, 255], 0), (&[1; 3], 13)] {
                let answer = library.compare_replay(group, &file, trace, right);
                group.demand(answer == (44, 0), || format!("{answer:?}"));
            }
            let answer = library.compare_run(group, &mut file, 0, [0, 255, 255, 255]);
            group.demand(answer == 44, || format!("{answer:?}"));
        }
    });

    report.group("runs that hang on what rights carry", 20_000, |group| {
        let mut only = 0;
        while group.inputs < 20_000 {
            let draft = lively(random);
            let mut file = draft.file();
            let contents = file::read(&file).unwrap();
            // The same with nothing carried, of which there may be a refusal more.
            let mut plain = draft.carrying_nothing().file();
            for _ in 0..10 {
                let (rule, actuals) = likely_run(random, &contents.rules, &contents.matrix);
                // Mostly such as are done by what the cells hold or carry.
                let tested = !contents.rules[rule as usize].conditions.is_empty();
                let done = || run_file(&mut file.clone(), rule, actuals) == 0;
                if !(tested && done()) && !random.percent(5) {
                    continue;
                }
                let answer = library.compare_run(group, &mut file, rule, actuals);
                let without = library.compare_run(group, &mut plain, rule, actuals);
                let good = without == answer || (without == 14 && answer != 14);
                group.demand(good, || format!("{answer}, without carries {without}"));
                only += u64::from(answer == 0 && without == 14);
                write_matrix(&mut file, &contents.matrix);
                write_matrix(&mut plain, &contents.matrix);
            }
        }
        println!("  done by carrying alone: {only}");
        group.demand(only >= 500, || {
            format!("only {only} done by carrying alone")
        });
    });

    report.group("replays of long traces", 30_000, |group| {
        let mut long = 0;
        while group.inputs < 30_000 {
            let mut file = lively(random).file();
            let mut contents = file::read(&file).unwrap();
            settle(random, &mut file, &mut contents);
            let length = random.pick(&[1, 2, 5, 10, 20, 40, 80]);
            let mut steps = trace(random, &contents, length);
            // A last step that may be refused, and something behind it.
            for _ in 0..random.pick(&[0, 0, 1, 2]) {
                let (rule, actuals) = any_run(random, &contents.rules);
                steps.push(rule);
                steps.extend(actuals);
            }
            for _ in 0..3 {
                let right = choose_right(random, &file, &contents, &steps);
                let answer = library.compare_replay(group, &file, &steps, right);
                if answer.1 >= 10 {
                    long += 1;
                }
            }
        }
        group.demand(long >= 3_000, || format!("only {long} answers past step 9"));
    });

    report.group("replays of traces with job numbers", 20_000, |group| {
        let (mut carried_out, mut leaks) = (0, 0);
        while group.inputs < 20_000 {
            let mut file = lively(random).file();
            let mut contents = file::read(&file).unwrap();
            settle(random, &mut file, &mut contents);
            let length = random.pick(&[1, 5, 20, 40]);
            let mut steps = trace(random, &contents, length);
            // The first of them that may be refused, for another reason.
            if random.percent(30) {
                let (rule, actuals) = likely_run(random, &contents.rules, &contents.matrix);
                steps.push(rule);
                steps.extend(actuals);
            }
            let mut numbers = 0;
            for step in steps.chunks_exact_mut(5) {
                for &blank in &contents.rules[step[0] as usize].spare {
                    step[1 + blank] = random.between(32, 255) as u8;
                    numbers += 1;
                }
            }
            if numbers == 0 {
                continue;
            }
            let right = choose_right(random, &file, &contents, &steps);
            let answer = library.compare_replay(group, &file, &steps, right);
            // With other numbers it is the same replay.
            for step in steps.chunks_exact_mut(5) {
                let rule = &contents.rules[step[0] as usize];
                let actuals = [step[1], step[2], step[3], step[4]];
                step[1..].copy_from_slice(&other_jobs(random, rule, actuals));
            }
            let other = (library.replay)(&file, &steps, right);
            group.demand(answer == other, || {
                format!(
                    "{answer:?}, with other numbers {other:?}, right {right}, trace {}, on {}",
                    hex(&steps),
                    hex(&file)
                )
            });
            carried_out += u64::from(answer.0 == 0);
            leaks += u64::from(answer.0 == LEAK);
        }
        println!("  no leak {carried_out}, a leak {leaks}");
        group.demand(carried_out >= 4_000, || {
            format!("only {carried_out} without a leak")
        });
        group.demand(leaks >= 4_000, || format!("only {leaks} leaks"));
    });

    report.group("replays with one step altered", 20_000, |group| {
        while group.inputs < 20_000 {
            let file = lively(random).file();
            let contents = file::read(&file).unwrap();
            let mut steps = trace(random, &contents, 30);
            if steps.is_empty() {
                continue;
            }
            let right = choose_right(random, &file, &contents, &steps);
            for _ in 0..4 {
                let place = random.below(steps.len());
                let kept = steps[place];
                steps[place] = random.pick(&[0, 1, 2, 30, 31, 32, 254, 255]);
                library.compare_replay(group, &file, &steps, right);
                steps[place] = kept;
            }
        }
    });

    report.group(
        "delete and enter, enter and delete, in one rule",
        5_000,
        |group| {
            let mut leaks = 0;
            while group.inputs < 5_000 {
                let file = turbulent(random).file();
                let contents = file::read(&file).unwrap();
                let steps = trace(random, &contents, 6);
                for right in 0..contents.rights {
                    let answer = library.compare_replay(group, &file, &steps, right);
                    leaks += u64::from(answer.0 == LEAK);
                }
            }
            group.demand(leaks >= 500, || format!("only {leaks} leaks"));
        },
    );

    report.group("trace lengths, rights and empty traces", 10_000, |group| {
        while group.inputs < 10_000 {
            let file = lively(random).file();
            let contents = file::read(&file).unwrap();
            let mut steps = trace(random, &contents, 8);
            let right = random.below(contents.rights as usize) as u8;
            let answer = library.compare_replay(group, &file, &[], right);
            group.demand(answer == (0, 0), || format!("empty trace gives {answer:?}"));
            for past in [contents.rights, 8, RIGHTS, 31, 255] {
                if past >= contents.rights {
                    let answer = library.compare_replay(group, &file, &steps, past);
                    group.demand(answer == (21, 0), || format!("right {past}: {answer:?}"));
                    // 21 comes before 31.
                    let answer = library.compare_replay(group, &file, &[1, 2, 3], past);
                    group.demand(answer == (21, 0), || format!("right {past}: {answer:?}"));
                }
            }
            for _ in 0..4 {
                let byte = random.byte();
                steps.push(byte);
                let answer = library.compare_replay(group, &file, &steps, right);
                let wanted = if steps.len().is_multiple_of(5) {
                    answer.0
                } else {
                    31
                };
                group.demand(answer.0 == wanted, || {
                    format!("{} bytes: {answer:?}", steps.len())
                });
            }
        }
    });

    report.group("replays on wrong files", 10_000, |group| {
        while group.inputs < 10_000 {
            let draft = lively(random);
            let contents = file::read(&draft.file()).unwrap();
            let mut steps = trace(random, &contents, 5);
            let file = wrong_file(random, &draft);
            // The file's refusal comes before 21 and 31.
            if random.percent(30) {
                steps.push(0);
            }
            let right = random.below(16) as u8;
            library.compare_replay(group, &file, &steps, right);
        }
    });

    report.group("each answer of a run was seen", 15, |group| {
        let answers = [0, 1, 2, 3, 4, 5, 6, 7, 8, 9, 11, 12, 14, 15, 44];
        library.runs.demand(group, &answers, 100);
    });
    report.group("each answer of a replay was seen", 18, |group| {
        let answers = [
            0, 1, 2, 3, 4, 5, 6, 7, 8, 9, 11, 12, 14, 15, 21, 31, 44, LEAK,
        ];
        library.replays.demand(group, &answers, 100);
    });
    report.group(
        "each byte was seen in spare blanks of runs that were done",
        259,
        |group| {
            library.run_jobs.demand(group, 100, 1_000);
        },
    );
    report.group(
        "each byte was seen in spare blanks of replayed steps",
        259,
        |group| {
            library.replay_jobs.demand(group, 100, 1_000);
        },
    );
    library.runs.print("answers of runs");
    library.replays.print("answers of replays (255 is a leak)");
    report.finish();
}
