//! Runs the reference implementation on document 01's cases P1 to P10 and on
//! its settled readings, and its parts against each other. Needs no library.

use reference::brute::{self, Carrying, Found, Instance, Move, State};
use reference::carrying::carriers;
use reference::desk::desk;
use reference::file::{self, Contents, Set};
use reference::filled::Course;
use reference::generate::*;
use reference::judge::{judge, judge_part, SAFE, UNSAFE};
use reference::machine::{numbers, run, run_file, AccessMatrix, Bounded, Unbounded};
use reference::need::{need, NEVER};
use reference::random::Random;
use reference::replay::{replay, LEAK};
use reference::report::{hex, Arguments, Group, Report};
use reference::rounds::most_steps;
use reference::sheet::{sheet, ENTRY};
use reference::trusted::office;
use reference::verdict::{needed, Question};
use reference::{carried, lists, second, stored, table, twelve};

/// A draft with these kinds and these rights in cells.
fn draft(rights: u8, kinds: &[(usize, u8)], cells: &[(usize, usize, u8)]) -> Draft {
    let mut draft = Draft::empty(rights);
    for &(name, kind) in kinds {
        draft.kinds[name] = kind;
    }
    for &(s, o, right) in cells {
        draft.put(s, o, right);
    }
    draft
}

fn with(mut draft: Draft, rules: &[Vec<u8>]) -> Draft {
    draft.rules = rules.to_vec();
    draft
}

/// What the desk program prints for the right and the file.
fn printed(draft: &Draft, right: u8) -> String {
    let mut input = vec![right];
    input.extend(draft.file());
    desk(&input)
}

fn same<T: PartialEq + std::fmt::Debug>(group: &mut Group, given: T, wanted: T) {
    group.input(given == wanted, || {
        format!("given {given:?}, wanted {wanted:?}")
    });
}

/// Judges with a buffer of this length, filled with 170.
fn judged(draft: &Draft, right: u8, length: usize) -> (u8, u64, Vec<u8>) {
    let mut buffer = vec![170; length];
    let account = judge(&draft.file(), right, &mut buffer);
    (account.code, account.steps, buffer)
}

fn p1() -> Draft {
    with(
        draft(2, &[(0, 2), (1, 2), (2, 1)], &[(0, 2, 0)]),
        &[rule(3, &[[0, 0, 2]], &[[ENTER, 1, 1, 2]])],
    )
}

fn p2() -> Draft {
    with(
        draft(2, &[(0, 2)], &[(0, 0, 0), (0, 0, 1)]),
        &[
            rule(2, &[], &[[DELETE, 0, 0, 1]]),
            rule(2, &[[1, 0, 1]], &[[ENTER, 0, 0, 1]]),
        ],
    )
}

fn p3() -> Draft {
    let mut p3 = p2();
    p3.rules[1] = rule(2, &[[0, 0, 1]], &[[ENTER, 0, 0, 1]]);
    p3
}

fn p4() -> Draft {
    with(
        draft(1, &[], &[]),
        &[
            rule(1, &[], &[[CREATE_SUBJECT, 0, 0, 0]]),
            rule(2, &[], &[[ENTER, 0, 0, 1]]),
        ],
    )
}

fn p5() -> Draft {
    let mut p5 = p4();
    p5.rules[0] = rule(2, &[], &[[CREATE_SUBJECT, 0, 0, 0]]);
    p5
}

fn objects(count: usize) -> Draft {
    let kinds: Vec<_> = (0..count).map(|name| (name, 1)).collect();
    draft(1, &kinds, &[])
}

fn p9() -> Draft {
    with(
        draft(1, &[(0, 2)], &[]),
        &[rule(
            2,
            &[],
            &[
                [ENTER, 0, 0, 1],
                [DESTROY_SUBJECT, 0, 0, 0],
                [ENTER, 0, 1, 1],
            ],
        )],
    )
}

fn p10() -> Draft {
    with(
        draft(1, &[(0, 2)], &[]),
        &[rule(1, &[], &[[CREATE_SUBJECT, 0, 0, 0]])],
    )
}

fn main() {
    let arguments = Arguments::read("cases");
    let mut random = Random::new(arguments.seed);
    let random = &mut random;
    let mut report = Report::default();

    report.group("P1", 6, |group| {
        let p1 = p1();
        same(group, printed(&p1, 1), "UNSAFE 1\n0 0 0 2\n".to_string());
        let contents = file::read(&p1.file()).unwrap();
        same(group, 5 * most_steps(&contents), 170);
        same(group, judged(&p1, 1, 169), (24, 0, vec![170; 169]));
        for length in [170, 171, 400] {
            let mut wanted = vec![170; length];
            wanted[..5].copy_from_slice(&[0, 0, 0, 2, 255]);
            same(group, judged(&p1, 1, length), (UNSAFE, 1, wanted));
        }
    });

    report.group("P2 to P8", 10, |group| {
        let text = |line: &str| line.to_string();
        same(group, printed(&p2(), 0), text("UNSAFE 2\n0 0 0\n1 0 0\n"));
        same(group, printed(&p3(), 0), text("SAFE 0\n"));
        same(group, printed(&p4(), 0), text("UNSAFE 2\n0 0\n1 0 0\n"));
        same(group, printed(&p5(), 0), text("UNSAFE 2\n0 0 0\n1 0 0\n"));
        same(group, printed(&draft(1, &[], &[]), 0), text("SAFE 0\n"));
        same(group, printed(&objects(30), 0), text("SAFE 0\n"));
        same(group, printed(&objects(31), 0), text("REFUSED 23\n"));
        same(group, desk(&[]), text("REFUSED 1\n"));
        same(group, desk(&[0]), text("REFUSED 1\n"));
        same(group, printed(&p1(), 2), text("REFUSED 21\n"));
    });

    report.group(
        "stored outputs of the desk program",
        50,
        |group| match stored::cases("desk") {
            Ok(cases) => {
                for case in cases {
                    let (given, wanted) = (desk(&case.input), case.wanted);
                    group.input(given.as_bytes() == wanted, || {
                        format!("{}: reference {given:?}", case.name)
                    });
                }
            }
            Err(wrong) => group.demand(false, || wrong),
        },
    );

    report.group("the example file is its text's", 1, |group| {
        let file = std::fs::read("../tables/vermilion.file");
        let text = std::fs::read_to_string("../tables/vermilion.table");
        match (file, text) {
            (Ok(file), Ok(text)) => {
                same(group, Ok(file), table::file(&text));
            }
            wrong => group.demand(false, || format!("{wrong:?}")),
        }
    });

    report.group("P9 and P10", 4, |group| {
        for (draft, actuals) in [(p9(), [0, 0, 255, 255]), (p10(), [0, 255, 255, 255])] {
            let mut file = draft.file();
            same(group, run_file(&mut file, 0, actuals), 15);
            same(group, file, draft.file());
        }
    });

    report.group("the brute search on P1 to P6", 6, |group| {
        let cases = [
            (p2(), Found::Leak),
            (p3(), Found::NoLeak),
            (p4(), Found::Leak),
            (p5(), Found::Leak),
            (draft(1, &[], &[]), Found::NoLeak),
            (p1(), Found::NoLeak),
        ];
        for (draft, wanted) in cases {
            let contents = file::read(&draft.file()).unwrap();
            same(group, brute::search(&contents, 0, 2, 100_000).found, wanted);
        }
    });

    report.group("rights that carry: verdicts by hand", 100, |group| {
        verdicts_by_hand(group, carried::verdicts());
    });

    report.group("rights that carry: runs by hand", 24, |group| {
        runs_by_hand(group, carried::played());
    });

    report.group("twelve rights: files by hand", 2_900, |group| {
        for case in twelve::checked() {
            let answers = [file::check, second::check].map(|check| check(&case.file));
            group.input(answers == [case.refusal; 2], || {
                format!("{}: {answers:?}", case.what)
            });
        }
        let length = twelve::longest().len();
        group.demand(length == 3_494, || format!("the longest has {length}"));
    });

    report.group("twelve rights: verdicts by hand", 200, |group| {
        verdicts_by_hand(group, twelve::verdicts());
    });

    report.group("twelve rights: runs by hand", 240, |group| {
        runs_by_hand(group, twelve::played());
    });

    report.group("twelve rights: the largest bound", 5, |group| {
        let (draft, right) = twelve::fullest();
        let contents = file::read(&draft.file()).unwrap();
        same(group, most_steps(&contents), 11_908);
        same(group, reference::desk::BUFFER, 59_540);
        let (code, steps, buffer) = judged(&draft, right, 59_540);
        same(group, (code, steps), (UNSAFE, 10_916));
        let behind = &buffer[5 * 10_916..];
        same(group, behind.iter().all(|&byte| byte == 170), true);
        same(
            group,
            judged(&draft, right, 59_539),
            (24, 0, vec![170; 59_539]),
        );
    });

    report.group("rights that carry: 44 comes first", 300, |group| {
        for file in carried::wrong() {
            for (trace, right) in [(&[][..], 0), (&[0, 0, 255, 255, 255], 0), (&[1; 3], 13)] {
                let answers = [replay, second::replay].map(|play| play(&file, trace, right));
                group.input(answers == [(44, 0); 2], || {
                    format!("{answers:?}, {}", hex(&file))
                });
            }
            let mut after = file.clone();
            let answers = [run_file, second::run].map(|run| run(&mut after, 0, [0, 255, 255, 255]));
            group.input(answers == [44; 2] && after == file, || {
                format!("{answers:?}, {}", hex(&file))
            });
        }
    });

    report.group("closures: chains of links", 4_000, |group| {
        // Every relation of three rights, and many of more.
        let mut relations: Vec<Vec<Set>> = (0..512)
            .map(|bits| (0..3).map(|i| bits >> (3 * i) & 7).collect())
            .collect();
        while relations.len() < 4_000 {
            relations.push(any(random).carries);
        }
        for carries in relations {
            group.input(closures_agree(&carries), || format!("{carries:?}"));
        }
    });

    report.group("errors near at hand", 4, |group| {
        // The spare blank waits for no object, and the subject is the first name.
        let no_object = with(
            draft(1, &[], &[]),
            &[
                rule(2, &[], &[[CREATE_SUBJECT, 0, 0, 0]]),
                rule(1, &[], &[[CREATE_OBJECT, 0, 0, 0]]),
                rule(2, &[], &[[ENTER, 0, 0, 1]]),
            ],
        );
        let listing = "UNSAFE 3\n0 0 0\n1 1\n2 0 0\n";
        same(group, printed(&no_object, 0), listing.to_string());
        // The names that conditions want are sought beside spare blanks.
        let beside = with(
            draft(2, &[(9, 2)], &[(9, 9, 1)]),
            &[
                rule(3, &[[1, 2, 2]], &[[CREATE_OBJECT, 0, 1, 0]]),
                rule(4, &[[1, 3, 3]], &[[ENTER, 0, 3, 2]]),
            ],
        );
        let listing = "UNSAFE 2\n0 0 0 9\n1 0 0 0 9\n";
        same(group, printed(&beside, 0), listing.to_string());
        // One name for both blanks is the only way.
        let one_name = with(
            draft(2, &[(7, 2)], &[(7, 7, 1)]),
            &[rule(2, &[[1, 1, 0]], &[[ENTER, 0, 0, 1]])],
        );
        let listing = "UNSAFE 1\n0 7 7\n".to_string();
        same(group, printed(&one_name, 0), listing);
        // A created blank under a condition is never allowed.
        let never = with(
            draft(1, &[(0, 2)], &[(0, 0, 0)]),
            &[
                rule(1, &[[0, 0, 0]], &[[CREATE_SUBJECT, 0, 0, 0]]),
                rule(2, &[[0, 0, 0]], &[[ENTER, 0, 1, 1]]),
            ],
        );
        same(group, printed(&never, 0), "SAFE 0\n".to_string());
    });

    report.group("what a leak is", 12, |group| {
        let start = draft(2, &[(0, 2)], &[(0, 0, 0)]);
        let delete = [DELETE, 0, 0, 0];
        let enter = [ENTER, 0, 0, 0];
        let trace = [0, 0, 255, 255, 255];
        let answer = |steps: &[[u8; 4]], trace: &[u8], right: u8| {
            let file = with(start.clone(), &[rule(1, &[], steps)]).file();
            replay(&file, trace, right)
        };
        // The matrix ends as it began, and yet it leaks.
        same(group, answer(&[delete, enter], &trace, 0), (LEAK, 0));
        same(group, answer(&[enter], &trace, 0), (0, 0));
        let gone = [ENTER, 1, 0, 0];
        let removed = [DELETE, 1, 0, 0];
        same(group, answer(&[gone, removed], &trace, 1), (LEAK, 0));
        // A rule refused at a later step has entered nothing.
        let create = [CREATE_SUBJECT, 0, 0, 0];
        same(group, answer(&[gone, create], &trace, 1), (15, 0));
        same(group, answer(&[gone], &[], 1), (0, 0));
        same(group, answer(&[gone], &trace[..4], 1), (31, 0));
        same(group, answer(&[gone], &trace[..4], 2), (21, 0));
        // The first of leak and refusal.
        let twice = [0, 0, 255, 255, 255, 1, 0, 255, 255, 255];
        same(group, answer(&[gone], &twice, 1), (LEAK, 0));
        same(group, answer(&[enter], &twice, 0), (11, 1));
        same(group, answer(&[enter], &[0, 32, 255, 255, 255], 0), (12, 0));
        same(
            group,
            answer(&[enter], &[0, 255, 255, 255, 255], 0),
            (12, 0),
        );
        same(group, answer(&[enter], &[0, 0, 0, 255, 255], 0), (12, 0));
        same(group, answer(&[enter], &[0, 1, 255, 255, 255], 0), (15, 0));
    });

    report.group("the order of 11 to 15", 1_500, |group| {
        // Blank 2 is spare; the condition and the step want subjects.
        let section = rule(3, &[[0, 0, 1]], &[[ENTER, 1, 1, 0]]);
        let file = with(
            draft(2, &[(0, 2), (1, 1)], &[(0, 0, 0), (0, 1, 0)]),
            &[section],
        )
        .file();
        let answer = |rule: u8, actuals: [u8; 4]| run_file(&mut file.clone(), rule, actuals);
        same(group, answer(1, [99, 99, 99, 0]), 11);
        for job in 0..=255 {
            same(group, answer(0, [9, 9, job, 0]), 12);
            same(group, answer(0, [32, 9, job, 255]), 12);
            same(group, answer(0, [9, 255, job, 255]), 12);
            same(group, answer(0, [9, 9, job, 255]), 14);
            same(group, answer(0, [0, 1, job, 255]), 15);
            same(group, answer(0, [0, 0, job, 255]), 0);
        }
        // The number that is created, one of no name, and the mark of no blank.
        for job in [4, 117, 255] {
            let mut fresh = p5().file();
            same(group, run_file(&mut fresh, 0, [4, job, 255, 255]), 0);
            let created = file::read(&fresh).unwrap().matrix.names();
            same(group, created, vec![4]);
            same(group, run_file(&mut fresh, 0, [5, job, 0, 255]), 12);
        }
    });

    report.group("the 0 behind a created blank names none", 8, |group| {
        for kind in [CREATE_SUBJECT, CREATE_OBJECT] {
            let table = with(draft(1, &[], &[]), &[rule(2, &[], &[[kind, 0, 1, 0]])]);
            for (actuals, wanted) in [
                ([117, 3, 255, 255], 0),
                ([255, 31, 255, 255], 0),
                ([0, 32, 255, 255], 12),
                ([3, 255, 255, 255], 12),
            ] {
                same(group, run_file(&mut table.file(), 0, actuals), wanted);
            }
        }
    });

    report.group(
        "the printer's machine has no bound for names",
        10,
        |group| {
            let contents = file::read(&p4().file()).unwrap();
            let start = Unbounded::start(&contents.matrix);
            let far = 1_000_000_007;
            let created = run(&start, &contents.rules, 0, [far, 255, 255, 255]);
            let state = created.ok().unwrap().after;
            same(group, state.is_subject(far), true);
            let entered = run(&state, &contents.rules, 1, [far, far, 255, 255]);
            same(group, entered.ok().map(|done| done.leaked), Some(1));
            let refusal = |rule: u64, actuals: [u64; 4]| {
                run(&state, &contents.rules, rule, actuals)
                    .err()
                    .unwrap_or(0)
            };
            same(group, refusal(0, [255, 255, 255, 255]), 0);
            same(group, refusal(0, [far, 255, 255, 255]), 15);
            same(group, refusal(0, [5, 0, 255, 255]), 12);
            same(group, refusal(u64::MAX, [5, 255, 255, 255]), 11);
            // Of a spare blank nothing is asked.
            let contents = file::read(&p5().file()).unwrap();
            for job in [far, u64::MAX, 255, 5] {
                let given = run(&start, &contents.rules, 0, [5, job, 255, 255]);
                let subjects = given.map(|done| (done.after.is_subject(5), done.after.exists(far)));
                same(group, subjects.ok(), Some((true, false)));
            }
        },
    );

    report.group("bounded and unbounded machine agree", 20_000, |group| {
        let mut done = 0;
        while group.inputs < 20_000 {
            let contents = file::read(&lively(random).file()).unwrap();
            done += agree(group, random, &contents);
        }
        group.demand(done >= 5_000, || format!("only {done} runs carried out"));
    });

    report.group(
        "the machine and the brute search's agree",
        20_000,
        |group| {
            while group.inputs < 20_000 {
                let contents = file::read(&small(random).file()).unwrap();
                if !contents.rules.is_empty() {
                    agree_with_brute(group, random, &contents);
                }
            }
        },
    );

    report.group("reference and second judge agree", 300, |group| {
        let (mut spare, mut parts) = (0, 0);
        while group.inputs < 300 {
            let (mut draft, right) = match group.inputs % 3 {
                0 => (small(random), 0),
                1 => large(random),
                _ => chain(random),
            };
            // Of the whole, and without trusted names.
            let trusted = match group.inputs % 2 {
                0 => Vec::new(),
                _ => office(random, &mut draft),
            };
            let file = draft.file();
            // The second judge is slow on three blanks.
            let rules = file::read(&file).unwrap().rules;
            if rules.iter().any(|rule| rule.named().count() > 2) {
                continue;
            }
            let mut one = vec![170; reference::desk::BUFFER];
            let mut other = one.clone();
            let account = judge_part(&file, right, &trusted, &mut one);
            let answer = second::judge_part(&file, right, &trusted, &mut other);
            group.input(
                (account.code, account.steps) == answer && one == other,
                || {
                    let asked = Question::new(&file, right).without(&trusted);
                    format!("{account:?} and {answer:?}, {}", asked.shown())
                },
            );
            group.demand(matches!(account.code, SAFE | UNSAFE), || {
                format!("refused {}", account.code)
            });
            spare += u64::from(account.spare > 0);
            parts += u64::from(!trusted.is_empty() && account.steps > 0);
        }
        group.demand(spare >= 80, || {
            format!("only {spare} with a step of a rule with spare blanks")
        });
        group.demand(parts >= 50, || {
            format!("only {parts} with a step without trusted names")
        });
    });

    report.group(
        "reference and second answer to a press agree",
        300,
        |group| {
            let mut seen = [0; 3];
            while group.inputs < 300 {
                let draft = match group.inputs % 2 {
                    0 => small(random),
                    _ => chain(random).0,
                };
                let file = draft.file();
                let contents = file::read(&file).unwrap();
                if contents.rules.iter().any(|rule| rule.named().count() > 2) {
                    continue;
                }
                let course = Course::of(&contents);
                let list = lists::bytes(&lists::any_cells(random, &contents, course.last()));
                let mut one = vec![170; reference::desk::BUFFER];
                let mut other = one.clone();
                let account = need(&file, &list, &mut one);
                let answer = second::need(&file, &list, &mut other);
                group.input(
                    (account.code, account.steps) == answer && one == other,
                    || format!("{account:?} and {answer:?}, cells {list:?}, {}", hex(&file)),
                );
                seen[match (account.code, account.steps) {
                    (NEVER, _) => 0,
                    (_, 0) => 1,
                    _ => 2,
                }] += 1;
            }
            group.demand(seen.iter().all(|&count| count >= 30), || {
                format!("{seen:?}")
            });
        },
    );

    report.group("reference and second sheet agree", 700, |group| {
        let mut seen = [0; 4];
        while group.inputs < 700 {
            let file = small(random).file();
            let rights = file[0];
            // Up to 10 entries, and bytes that make none.
            let length = random.below(44);
            let mut one = random.bytes(length);
            for right in one.iter_mut().step_by(ENTRY) {
                *right %= rights + 1;
            }
            let count = one.len() / ENTRY;
            // A part may be a byte short.
            let length = (count * needed(&file)).saturating_sub(random.below(2));
            let length = length + random.below(count.max(1));
            let mut other = one.clone();
            let mut buffer = random.bytes(length);
            let mut second_buffer = buffer.clone();
            let code = sheet(&file, &mut one, &mut buffer);
            let answer = second::sheet(&file, &mut other, &mut second_buffer);
            group.input(
                code == answer && one == other && buffer == second_buffer,
                || format!("{code} and {answer}, {one:?} and {other:?}, {}", hex(&file)),
            );
            let has = |code: u8| one.chunks_exact(ENTRY).any(|entry| entry[1] == code);
            seen[match code {
                43 => 0,
                _ if has(24) => 1,
                _ if has(21) && has(UNSAFE) => 2,
                _ => 3,
            }] += 1;
        }
        group.demand(seen.iter().all(|&count| count >= 50), || {
            format!("43, 24, 21 beside unsafe, others: {seen:?}")
        });
    });

    report.finish();
}

/// Both implementations give the verdict and every byte of the buffer, and the brute
/// search the verdict where the table is small enough.
fn verdicts_by_hand(group: &mut Group, cases: Vec<carried::Verdict>) {
    for case in cases {
        let file = case.draft.file();
        let length = needed(&file);
        let mut wanted = case.steps.concat();
        let answer = (case.code, case.steps.len() as u64);
        wanted.resize(length, 170);
        let (code, steps, buffer) = judged(&case.draft, case.right, length);
        let good = (code, steps) == answer && buffer == wanted;
        group.input(good, || {
            format!("{}: {code} with {steps}, {}", case.what, hex(&buffer))
        });
        let mut buffer = vec![170; length];
        let other = second::judge(&file, case.right, &mut buffer);
        let good = other == answer && buffer == wanted;
        group.input(good, || format!("{}: second {other:?}", case.what));
        if case.draft.rights as usize <= brute::RIGHTS {
            let contents = file::read(&file).unwrap();
            let found = brute::search(&contents, case.right, 2, 100_000).found;
            let wanted = match case.code {
                UNSAFE => Found::Leak,
                _ => Found::NoLeak,
            };
            group.input(found == wanted, || format!("{}: {found:?}", case.what));
        }
    }
}

/// Both implementations give the answer and leave the file.
fn runs_by_hand(group: &mut Group, cases: Vec<carried::Played>) {
    for case in cases {
        let file = case.draft.file();
        let trace = case.trace.concat();
        let answers = [replay, second::replay].map(|play| play(&file, &trace, case.right));
        group.input(answers == [case.answer; 2], || {
            format!("{}: {answers:?}", case.what)
        });
        for run in [run_file, second::run] {
            let mut given = file.clone();
            for &[rule, actuals @ ..] in &case.trace {
                run(&mut given, rule, actuals);
            }
            group.input(given == case.file_after(), || {
                format!("{}: left {}", case.what, hex(&given))
            });
        }
    }
}

/// Whether the reference's sets of carriers are those that the definition says: a
/// chain of links of any length, here of at most as many as there are rights.
fn closures_agree(carries: &[Set]) -> bool {
    let rights = carries.len();
    let links = |i: usize, j: usize| carries[i] >> j & 1 == 1;
    let mut chained: Vec<Vec<bool>> = (0..rights)
        .map(|i| (0..rights).map(|q| i == q).collect())
        .collect();
    for _ in 0..rights {
        let shorter = chained.clone();
        for (i, row) in chained.iter_mut().enumerate() {
            for (q, chain) in row.iter_mut().enumerate() {
                *chain |= (0..rights).any(|j| links(i, j) && shorter[j][q]);
            }
        }
    }
    let carriers = carriers(carries);
    (0..rights).all(|i| (0..rights).all(|q| (carriers[q] >> i & 1 == 1) == chained[i][q]))
}

/// A walk on both machines at once; gives the number of runs carried out.
fn agree(group: &mut Group, random: &mut Random, contents: &Contents) -> u64 {
    let mut carried_out = 0;
    let mut bounded = contents.matrix.clone();
    let mut unbounded = Unbounded::start(&bounded);
    for _ in 0..50 {
        let (rule, actuals) = likely_run(random, &contents.rules, &bounded);
        let number = u64::from(rule);
        let one = run(&bounded, &contents.rules, number, numbers(actuals));
        let mut others = numbers(actuals);
        for &blank in &contents.rules[rule as usize].spare {
            others[blank] = random.word();
        }
        let other = run(&unbounded, &contents.rules, number, others);
        let good = match (one, other) {
            (Ok(one), Ok(other)) => {
                carried_out += 1;
                bounded = one.after;
                unbounded = other.after;
                one.leaked == other.leaked && Unbounded::start(&bounded) == unbounded
            }
            (Err(one), Err(other)) => one == other,
            _ => false,
        };
        group.input(good, || format!("rule {rule}, actuals {actuals:?}"));
    }
    carried_out
}

/// A walk on the brute search's machine and on the reference's.
fn agree_with_brute(group: &mut Group, random: &mut Random, contents: &Contents) -> u64 {
    let mut carried_out = 0;
    let mut matrix: Bounded = contents.matrix.clone();
    let mut pool = matrix.names();
    pool.extend((0..32).filter(|&name| !matrix.exists(name)).take(3));
    let mut state = State::start(&matrix, &pool);
    let carrying = Carrying::of(contents);
    for _ in 0..50 {
        let number = random.below(contents.rules.len());
        let rule = &contents.rules[number];
        let mut positions = [0; 4];
        let mut actuals = [255; 4];
        for blank in rule.named() {
            positions[blank] = random.below(pool.len());
            actuals[blank] = pool[positions[blank]];
        }
        for &blank in &rule.spare {
            actuals[blank] = u64::from(job_number(random));
        }
        let one = run(&matrix, &contents.rules, number as u64, actuals);
        let other = Instance::new(rule, &positions).run(&state, &carrying.met(&state));
        let good = match (one, other) {
            (Err(_), Move::Refused) => true,
            (Ok(done), Move::To(after)) => {
                carried_out += 1;
                matrix = done.after;
                state = after;
                done.leaked == 0
            }
            (Ok(done), Move::Leak(right, after)) => {
                carried_out += 1;
                matrix = done.after;
                state = after;
                done.leaked == 1 << right
            }
            _ => false,
        };
        group.input(good && State::start(&matrix, &pool) == state, || {
            format!("rule {number}, actuals {actuals:?}")
        });
    }
    carried_out
}
