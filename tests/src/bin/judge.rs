//! Compares the verified library's judge with a brute search on tiny tables
//! and with the reference judge on larger ones.

#[path = "../boundary/judge.rs"]
mod boundary_judge;
#[path = "../boundary/replay.rs"]
mod boundary_replay;

use reference::brute::{exhausted, Found, Search};
use reference::carried::{self, Verdict};
use reference::desk::BUFFER;
use reference::file::{self, Contents, RIGHTS};
use reference::generate::*;
use reference::judge::{judge, Account, SAFE, UNSAFE};
use reference::obstacles::{obstruct, wrong_file};
use reference::random::Random;
use reference::report::{hex, Arguments, Counts, Group, Report};
use reference::verdict::{compare, needed, Library, Question};
use reference::{second, twelve};

/// More states than this are given up; nothing is known of such a table.
const LIMIT: usize = 3_000;

/// Rules with spare blanks in the tables, and in the judge's steps.
#[derive(Default)]
struct Spares {
    rules: u64,
    with: u64,
    /// Tables whose steps have such a rule: safe, unsafe in a round, unsafe by
    /// the closing search.
    used: [u64; 3],
}

impl Spares {
    fn add(&mut self, contents: &Contents, account: &Account) {
        let spare = contents.rules.iter().filter(|rule| !rule.spare.is_empty());
        self.rules += contents.rules.len() as u64;
        self.with += spare.count() as u64;
        if account.spare > 0 {
            let which = match (account.code, account.closing) {
                (UNSAFE, true) => 2,
                (UNSAFE, false) => 1,
                _ => 0,
            };
            self.used[which] += 1;
        }
    }

    /// About a third of the rules, and so many tables.
    fn demand(&self, group: &mut Group, fewest: [u64; 3]) {
        let (with, rules, used) = (self.with, self.rules, self.used);
        println!("  spare blanks in {with} of {rules} rules, in the steps of {used:?} tables");
        group.demand(10 * with >= 3 * rules && 10 * with <= 4 * rules, || {
            format!("{with} of {rules} rules have spare blanks")
        });
        for (sort, (used, fewest)) in used.into_iter().zip(fewest).enumerate() {
            group.demand(used >= fewest, || {
                format!("only {used} tables of sort {sort} have spare blanks in their steps")
            });
        }
    }
}

/// Tables with carries, and what comes of these.
#[derive(Default)]
struct Carryings {
    with: u64,
    /// The verdict or the steps are others without the carries.
    other: u64,
    /// Unsafe by carrying alone: in a round, by the closing search.
    only: [u64; 2],
}

impl Carryings {
    fn add(&mut self, draft: &Draft, right: u8, account: &Account) {
        if draft.carries.iter().all(|carried| *carried == 0) {
            return;
        }
        let plain = draft.carrying_nothing().file();
        let without = judge(&plain, right, &mut vec![0; needed(&plain)]);
        self.with += 1;
        self.other += u64::from(*account != without);
        if account.code == UNSAFE && without.code == SAFE {
            self.only[usize::from(account.closing)] += 1;
        }
    }

    /// So many tables with carries, of each sort.
    fn demand(&self, group: &mut Group, fewest: [u64; 4]) {
        let Carryings { with, other, only } = self;
        println!(
            "  with carries {with}, others without them {other}, unsafe by them alone {only:?}"
        );
        let counts = [*with, *other, only[0], only[1]];
        for (sort, (count, fewest)) in counts.into_iter().zip(fewest).enumerate() {
            group.demand(count >= fewest, || {
                format!("only {count} tables with carries of sort {sort}")
            });
        }
    }
}

/// The verdict and every byte of the buffer, as they are written down.
fn by_hand(group: &mut Group, library: Library, random: &mut Random, cases: Vec<Verdict>) {
    for case in cases {
        let file = case.draft.file();
        let question = Question::new(&file, case.right);
        let length = needed(&file);
        compare(group, library, random, question, length);
        let mut buffer = vec![170; length];
        let answer = (library.judge)(question, &mut buffer);
        let mut wanted = case.steps.concat();
        wanted.resize(length, 170);
        let good = answer == (case.code, case.steps.len() as u64) && buffer == wanted;
        group.demand(good, || {
            let end = 5 * answer.1.min(20) as usize;
            format!(
                "{}: {answer:?}, {}",
                case.what,
                hex(&buffer[..end.min(length)])
            )
        });
    }
}

fn main() {
    let arguments = Arguments::read("judge");
    let library = if arguments.own {
        Library {
            judge: |asked, buffer| second::judge(asked.file, asked.right, buffer),
            replay: second::replay,
        }
    } else {
        Library {
            judge: |asked, buffer| boundary_judge::judge(asked.file, asked.right, buffer),
            replay: boundary_replay::replay,
        }
    };
    let mut random = Random::new(arguments.seed);
    let random = &mut random;
    let mut report = Report::default();
    let mut counts = Counts::default();

    report.group("P1 to P8", 9, |group| {
        let mut try_case = |draft: &Draft, right: u8, length: usize, code: u8, steps: &[u8]| {
            let file = draft.file();
            let (account, _) = compare(group, library, random, Question::new(&file, right), length);
            let mut buffer = vec![0; length];
            let answer = (library.judge)(Question::new(&file, right), &mut buffer);
            let good = answer == (code, steps.len() as u64 / 5)
                && account.code == code
                && buffer.starts_with(steps);
            group.demand(good, || {
                format!("answer {answer:?}, bytes {}", hex(&buffer))
            });
        };
        let mut p1 = Draft::empty(2);
        p1.kinds[..3].copy_from_slice(&[2, 2, 1]);
        p1.put(0, 2, 0);
        p1.rules.push(rule(3, &[[0, 0, 2]], &[[ENTER, 1, 1, 2]]));
        try_case(&p1, 1, 170, UNSAFE, &[0, 0, 0, 2, 255]);
        try_case(&p1, 1, 169, 24, &[]);
        let mut p2 = Draft::empty(2);
        p2.kinds[0] = 2;
        p2.put(0, 0, 0);
        p2.put(0, 0, 1);
        p2.rules.push(rule(2, &[], &[[DELETE, 0, 0, 1]]));
        let mut p3 = p2.clone();
        p2.rules.push(rule(2, &[[1, 0, 1]], &[[ENTER, 0, 0, 1]]));
        p3.rules.push(rule(2, &[[0, 0, 1]], &[[ENTER, 0, 0, 1]]));
        let steps = [0, 0, 0, 255, 255, 1, 0, 0, 255, 255];
        try_case(&p2, 0, 200, UNSAFE, &steps);
        try_case(&p3, 0, 200, SAFE, &[]);
        let mut p4 = Draft::empty(1);
        let mut p5 = p4.clone();
        p4.rules.push(rule(1, &[], &[[CREATE_SUBJECT, 0, 0, 0]]));
        p5.rules.push(rule(2, &[], &[[CREATE_SUBJECT, 0, 0, 0]]));
        for draft in [&mut p4, &mut p5] {
            draft.rules.push(rule(2, &[], &[[ENTER, 0, 0, 1]]));
        }
        let steps = [0, 0, 255, 255, 255, 1, 0, 0, 255, 255];
        try_case(&p4, 0, 200, UNSAFE, &steps);
        let steps = [0, 0, 0, 255, 255, 1, 0, 0, 255, 255];
        try_case(&p5, 0, 200, UNSAFE, &steps);
        let mut objects = Draft::empty(1);
        try_case(&objects, 0, 200, SAFE, &[]);
        objects.kinds[..30].fill(1);
        try_case(&objects, 0, 200, SAFE, &[]);
        objects.kinds[30] = 1;
        try_case(&objects, 0, 200, 23, &[]);
    });

    report.group("rights that carry: verdicts by hand", 50, |group| {
        by_hand(group, library, random, carried::verdicts());
    });

    report.group("twelve rights: verdicts by hand", 100, |group| {
        by_hand(group, library, random, twelve::verdicts());
    });

    report.group("twelve rights: the largest bound", 2, |group| {
        let (draft, right) = twelve::fullest();
        let file = draft.file();
        for (length, wanted) in [(59_540, (UNSAFE, 10_916)), (59_539, (24, 0))] {
            let question = Question::new(&file, right);
            let (account, _) = compare(group, library, random, question, length);
            let answer = (account.code, account.steps);
            group.demand(answer == wanted, || format!("{length} bytes: {answer:?}"));
        }
    });

    report.group("brute search on tiny tables", 24_000, |group| {
        let (mut safe, mut by_rounds, mut by_closing) = (0, 0, 0);
        let (mut dull, mut unknown, mut pools) = (0, 0, [0; 2]);
        let (mut all_states, mut most) = (0, 0);
        let (mut destroyed, mut recreated, mut with_refused, mut high) = (0, 0, 0, 0);
        let mut spares = Spares::default();
        let mut carryings = Carryings::default();
        while group.inputs < 24_000 {
            let mut draft = small(random);
            let contents = file::read(&draft.file()).unwrap();
            let mut right = if random.percent(80) { 0 } else { draft.rights - 1 };
            let Some((further, brute)) = exhausted(&contents, right, LIMIT) else {
                unknown += 1;
                continue;
            };
            let Search { found, states, .. } = brute;
            // Tables where next to nothing can happen are mostly left out.
            if found == Found::NoLeak && states < 12 && !random.percent(20) {
                dull += 1;
                continue;
            }
            pools[further - 2] += 1;
            all_states += states;
            most = most.max(states);
            destroyed += u64::from(brute.destroyed);
            recreated += u64::from(brute.recreated);
            with_refused += u64::from(brute.refused > 0);

            // The rights' numbers change nothing.
            if random.percent(50) {
                let (other, numbers) = renumbered(random, &draft);
                (draft, right) = (other, numbers[usize::from(right)]);
                high += u64::from(right >= 8);
            }
            let file = draft.file();
            let contents = file::read(&file).unwrap();
            let wanted = if found == Found::Leak { UNSAFE } else { SAFE };
            let length = needed(&file) + random.below(7);
            let (account, answer) = compare(group, library, random, Question::new(&file, right), length);
            group.demand(answer == wanted, || {
                format!(
                    "answer {answer}, brute search {found:?} with {states} states, right {right}, {}",
                    hex(&file)
                )
            });
            match (account.code, account.closing) {
                (UNSAFE, true) => by_closing += 1,
                (UNSAFE, false) => by_rounds += 1,
                _ => safe += 1,
            }
            counts.add(account.code);
            spares.add(&contents, &account);
            carryings.add(&draft, right, &account);
        }
        println!(
            "  safe {safe}, unsafe in a round {by_rounds}, unsafe by the closing search {by_closing}"
        );
        spares.demand(group, [2_000, 1_000, 500]);
        carryings.demand(group, [8_000, 700, 250, 120]);
        println!(
            "  three further names {}, two {}; {all_states} states, at most {most}; not exhausted {unknown}, left out {dull}",
            pools[1], pools[0]
        );
        println!(
            "  with a destroy {destroyed}, a name created anew {recreated}, a refused run {with_refused}; asked for a right from 8 on {high}"
        );
        group.demand(high >= 1_500, || format!("only {high} of a right from 8 on"));
        group.demand(destroyed >= 2_000, || format!("only {destroyed} with a destroy"));
        group.demand(recreated >= 1_000, || format!("only {recreated} with a name created anew"));
        group.demand(with_refused >= 10_000, || format!("only {with_refused} with a refused run"));
        group.demand(safe >= 8_000, || format!("only {safe} safe"));
        group.demand(by_rounds >= 2_500, || format!("only {by_rounds} unsafe in a round"));
        group.demand(by_closing >= 1_500, || format!("only {by_closing} by the closing search"));
        group.demand(pools[1] >= 20_000, || format!("only {} with three names", pools[1]));
    });

    report.group("larger tables against the plain judge", 1_000, |group| {
        let (mut safe, mut by_rounds, mut by_closing) = (0, 0, 0);
        let (mut long, mut steps, mut rounds) = (0, 0, 0);
        let mut spares = Spares::default();
        let mut carryings = Carryings::default();
        while group.inputs < 1_000 {
            let (draft, right) = large(random);
            let file = draft.file();
            let length = needed(&file) + random.pick(&[0, 0, 1, 4, 5, 1000]);
            let (account, _) = compare(group, library, random, Question::new(&file, right), length);
            match (account.code, account.closing) {
                (UNSAFE, true) => by_closing += 1,
                (UNSAFE, false) => by_rounds += 1,
                _ => safe += 1,
            }
            counts.add(account.code);
            spares.add(&file::read(&file).unwrap(), &account);
            carryings.add(&draft, right, &account);
            long += u64::from(account.steps >= 10);
            steps = account.steps.max(steps);
            rounds = account.rounds.max(rounds);
        }
        println!(
            "  safe {safe}, unsafe in a round {by_rounds}, unsafe by the closing search {by_closing}; {long} with 10 steps or more, at most {steps} steps, {rounds} rounds"
        );
        spares.demand(group, [200, 50, 20]);
        carryings.demand(group, [300, 80, 10, 2]);
        group.demand(safe >= 200, || format!("only {safe} safe"));
        group.demand(by_rounds >= 50, || format!("only {by_rounds} unsafe in a round"));
        group.demand(by_closing >= 50, || format!("only {by_closing} by the closing search"));
        group.demand(long >= 200, || format!("only {long} with 10 steps or more"));
    });

    report.group("30 names, and both creates done", 150, |group| {
        let mut both = 0;
        while group.inputs < 150 {
            let (mut draft, right) = large(random);
            let names = draft.kinds.iter().filter(|kind| **kind > 0).count();
            if names < 29 {
                continue;
            }
            both_creates(random, &mut draft);
            let file = draft.file();
            let (account, _) = compare(
                group,
                library,
                random,
                Question::new(&file, right),
                needed(&file),
            );
            counts.add(account.code);
            both += u64::from(account.steps >= 2);
        }
        group.demand(both >= 50, || format!("only {both} with two steps"));
    });

    report.group("buffer lengths", 6_000, |group| {
        for round in 0..1_000 {
            let (draft, right) = if round % 25 == 0 {
                chain(random)
            } else {
                (small(random), 0)
            };
            let file = draft.file();
            let needed = needed(&file);
            for length in [0, 1, random.below(needed), needed - 1] {
                let (account, _) =
                    compare(group, library, random, Question::new(&file, right), length);
                counts.add(account.code);
                group.demand(account.code == 24, || {
                    format!("{length} bytes: {account:?}")
                });
            }
            for length in [needed, needed + 1] {
                let (account, _) =
                    compare(group, library, random, Question::new(&file, right), length);
                counts.add(account.code);
                group.demand(matches!(account.code, SAFE | UNSAFE), || {
                    format!("{length} bytes: {account:?}")
                });
            }
        }
    });

    report.group("refusals 21 to 24 in their order", 10_000, |group| {
        while group.inputs < 10_000 {
            let mut draft = small(random);
            let mut right = random.below(draft.rights as usize) as u8;
            // The first in the order is the answer.
            let (length, mut planted) = obstruct(random, &mut draft);
            if random.percent(20) {
                right = random.pick(&[draft.rights, RIGHTS, 31, 255]);
                planted.insert(0, 21);
            }
            let Some(&first) = planted.first() else {
                continue;
            };
            let file = draft.file();
            let (account, _) = compare(group, library, random, Question::new(&file, right), length);
            counts.add(account.code);
            group.demand(account.code == first, || {
                format!("reference {account:?}, {planted:?} were planted")
            });
        }
    });

    report.group("wrong files", 10_000, |group| {
        while group.inputs < 10_000 {
            let (file, fault) = wrong_file(random);
            let right = random.below(16) as u8;
            let length = random.pick(&[0, 10, 200, BUFFER]);
            let (account, _) = compare(group, library, random, Question::new(&file, right), length);
            counts.add(account.code);
            group.demand(account.code == fault.refusal(), || {
                format!("reference {account:?}, {fault:?} was planted")
            });
        }
    });

    report.group("each answer was seen", 16, |group| {
        let answers = [SAFE, 1, 2, 3, 4, 5, 6, 7, 8, 9, 21, 22, 23, 24, 44, UNSAFE];
        counts.demand(group, &answers, 100);
    });
    counts.print("answers (0 is safe, 255 is unsafe)");
    report.finish();
}
