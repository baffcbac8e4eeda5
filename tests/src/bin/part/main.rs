//! Compares the verified library's judge of the part that stays without trusted
//! names (request C-15) with cases by hand, with a brute search of the part on
//! tiny tables, with the reference on larger ones, and with the judge.

#[path = "../../boundary/judge.rs"]
mod boundary_judge;
#[path = "../../boundary/part.rs"]
mod boundary_part;
#[path = "../../boundary/replay.rs"]
mod boundary_replay;
mod cases;
mod refusals;

use reference::brute::{exhausted, Found, Search};
use reference::desk::BUFFER;
use reference::file;
use reference::generate::*;
use reference::judge::{Account, SAFE, UNSAFE};
use reference::obstacles::{obstruct, wrong_file};
use reference::random::Random;
use reference::report::{Arguments, Counts, Group, Report};
use reference::second;
use reference::trusted::{any_names, office};
use reference::verdict::{compare, needed, part, Library, Question};

/// More states than this are given up; nothing is known of such a table.
const LIMIT: usize = 3_000;

/// The judge of the whole: file, right and buffer to its answer and the number
/// of its steps.
type Judge = fn(&[u8], u8, &mut [u8]) -> (u8, u64);

fn main() {
    let arguments = Arguments::read("part");
    let (library, judge): (Library, Judge) = if arguments.own {
        let library = Library {
            judge: |q, buffer| second::judge_part(q.file, q.right, q.trusted, buffer),
            replay: second::replay,
        };
        (library, second::judge)
    } else {
        let library = Library {
            judge: |q, buffer| boundary_part::judge_part(q.file, q.right, q.trusted, buffer),
            replay: boundary_replay::replay,
        };
        (library, boundary_judge::judge)
    };
    let mut random = Random::new(arguments.seed);
    let random = &mut random;
    let mut report = Report::default();
    let mut counts = Counts::default();

    cases::run(&mut report, library, random);
    refusals::run(&mut report, library, random, &mut counts);
    report.group("brute search of the part of tiny tables", 12_000, |group| {
        brute(group, library, judge, random, &mut counts)
    });
    report.group("larger tables against the plain judge", 1_600, |group| {
        larger(group, library, judge, random, &mut counts)
    });
    report.group("buffer lengths", 4_000, |group| {
        lengths(group, library, random, &mut counts)
    });
    report.group("without anybody it is the judge", 6_000, |group| {
        nobody(group, library, judge, random)
    });
    report.group("each answer was seen", 17, |group| {
        let answers = [
            SAFE, 1, 2, 3, 4, 5, 6, 7, 8, 9, 21, 22, 23, 24, 42, 44, UNSAFE,
        ];
        counts.demand(group, &answers, 100);
    });
    counts.print("answers (0 is safe, 255 is unsafe)");
    report.finish();
}

/// How the answers came about.
#[derive(Default)]
struct Mix {
    safe: u64,
    by_rounds: u64,
    by_closing: u64,
    /// Safe in the part, and unsafe in the whole.
    by_trusted: u64,
    /// A name was created, and one below it is absent in the part and listed.
    above_listed: u64,
    spare: u64,
}

impl Mix {
    fn add(&mut self, account: &Account, whole: u8, above_listed: bool) {
        match (account.code, account.closing) {
            (UNSAFE, true) => self.by_closing += 1,
            (UNSAFE, false) => self.by_rounds += 1,
            _ => self.safe += 1,
        }
        self.by_trusted += u64::from(account.code == SAFE && whole == UNSAFE);
        self.above_listed += u64::from(above_listed);
        self.spare += u64::from(account.spare > 0);
    }

    fn demand(&self, group: &mut Group, fewest: [u64; 6]) {
        let counts = [
            (self.safe, "safe"),
            (self.by_rounds, "unsafe in a round"),
            (self.by_closing, "unsafe by the closing search"),
            (self.by_trusted, "unsafe by trusted names alone"),
            (self.above_listed, "with a created name above a listed one"),
            (self.spare, "with spare blanks in their steps"),
        ];
        let told = counts.map(|(count, what)| format!("{count} {what}"));
        println!("  {}", told.join(", "));
        for ((count, what), fewest) in counts.into_iter().zip(fewest) {
            group.demand(count >= fewest, || format!("only {count} {what}"));
        }
    }
}

/// One input, beside the judge of the whole: unsafe without the trusted names is
/// unsafe with them.
fn beside(
    group: &mut Group,
    library: Library,
    judge: Judge,
    random: &mut Random,
    question: Question,
    mix: &mut Mix,
) -> (Account, u8) {
    let length = needed(question.file) + random.pick(&[0, 0, 1, 4, 5, 1000]);
    let (account, answer) = compare(group, library, random, question, length);
    let mut buffer = vec![0; length];
    let whole = judge(question.file, question.right, &mut buffer).0;
    group.demand(answer != UNSAFE || whole == UNSAFE, || {
        format!(
            "an unsafe part, and {whole} of the whole: {}",
            question.shown()
        )
    });
    (library.judge)(question, &mut buffer);
    let trace = &buffer[..5 * account.steps as usize];
    mix.add(&account, whole, created_above_listed(question, trace));
    (account, answer)
}

/// Whether a step creates a name above one of the list.
fn created_above_listed(question: Question, trace: &[u8]) -> bool {
    let rules = file::read(question.file).expect("an accepted file").rules;
    let created = |step: &[u8]| {
        let blank = rules.get(step[0] as usize)?.steps[0].created()?;
        Some(step[1 + blank])
    };
    let mut names = trace.chunks_exact(5).filter_map(created);
    names.any(|name| question.trusted.iter().any(|&listed| listed < name))
}

/// A list for the draft: an office that is added to it, some of its own names, or
/// both.
fn left_out(random: &mut Random, draft: &mut Draft) -> Vec<u8> {
    let own = file::read(&draft.file()).unwrap().matrix;
    let mut list = match random.percent(70) {
        true => office(random, draft),
        false => Vec::new(),
    };
    if list.is_empty() || random.percent(25) {
        list.extend(any_names(random, &own));
        random.shuffle(&mut list);
    }
    list
}

/// The part as a start of its own: all runs over its names and some further
/// ones, listed or not.
fn brute(
    group: &mut Group,
    library: Library,
    judge: Judge,
    random: &mut Random,
    counts: &mut Counts,
) {
    let mut mix = Mix::default();
    let mut searched = Searched::default();
    let mut high = 0;
    while group.inputs < 12_000 {
        let mut draft = small(random);
        let list = left_out(random, &mut draft);
        let mut file = draft.file();
        let mut right = if random.percent(80) {
            0
        } else {
            draft.rights - 1
        };
        let start = file::read(&part(&file, &list)).unwrap();
        let Some(found) = searched.add(random, exhausted(&start, right, LIMIT)) else {
            continue;
        };
        // The rights' numbers change nothing.
        if random.percent(50) {
            let (other, numbers) = renumbered(random, &draft);
            (file, right) = (other.file(), numbers[usize::from(right)]);
            high += u64::from(right >= 8);
        }
        let wanted = if found == Found::Leak { UNSAFE } else { SAFE };
        let question = Question::new(&file, right).without(&list);
        let (account, answer) = beside(group, library, judge, random, question, &mut mix);
        group.demand(answer == wanted, || {
            format!("answer {answer}, {found:?}: {}", question.shown())
        });
        counts.add(account.code);
    }
    mix.demand(group, [3_000, 1_000, 500, 500, 1_000, 1_000]);
    searched.demand(group);
    group.demand(high >= 1_000, || {
        format!("only {high} of a right from 8 on")
    });
}

/// What the brute searches came by.
#[derive(Default)]
struct Searched {
    /// With two further names, and with three.
    pools: [u64; 2],
    unknown: u64,
    dull: u64,
    destroyed: u64,
    recreated: u64,
}

impl Searched {
    /// What was found, where that is known. Parts where next to nothing can happen
    /// are mostly left out.
    fn add(&mut self, random: &mut Random, search: Option<(usize, Search)>) -> Option<Found> {
        let Some((further, search)) = search else {
            self.unknown += 1;
            return None;
        };
        if search.found == Found::NoLeak && search.states < 12 && !random.percent(20) {
            self.dull += 1;
            return None;
        }
        self.pools[further - 2] += 1;
        self.destroyed += u64::from(search.destroyed);
        self.recreated += u64::from(search.recreated);
        Some(search.found)
    }

    fn demand(&self, group: &mut Group) {
        let Searched {
            pools: [two, three],
            unknown,
            dull,
            destroyed,
            recreated,
        } = self;
        println!(
            "  three further names {three}, two {two}; not exhausted {unknown}, left out {dull}"
        );
        println!("  with a destroy {destroyed}, a name created anew {recreated}");
        for (count, what, fewest) in [
            (three, "with three names", 8_000),
            (destroyed, "with a destroy", 1_000),
            (recreated, "with a name created anew", 400),
        ] {
            group.demand(*count >= fewest, || format!("only {count} {what}"));
        }
    }
}

/// Up to 30 names, many rounds, and both creates done.
fn larger(
    group: &mut Group,
    library: Library,
    judge: Judge,
    random: &mut Random,
    counts: &mut Counts,
) {
    let mut mix = Mix::default();
    let (mut most, mut long, mut full) = (0, 0, 0);
    while group.inputs < 1_600 {
        let (mut draft, right) = match group.inputs % 4 {
            0 => chain(random),
            1 => busy_chain(random),
            _ => large(random),
        };
        let list = left_out(random, &mut draft);
        if group.inputs % 4 == 3 {
            both_creates(random, &mut draft);
        }
        let file = draft.file();
        let question = Question::new(&file, right).without(&list);
        let (account, _) = beside(group, library, judge, random, question, &mut mix);
        counts.add(account.code);
        most = most.max(account.steps);
        long += u64::from(account.steps >= 10);
        full += u64::from(draft.kinds.iter().filter(|kind| **kind > 0).count() == 30);
    }
    println!("  at most {most} steps, {long} with 10 or more; {full} with 30 names");
    mix.demand(group, [400, 200, 100, 100, 100, 300]);
    group.demand(most >= 200, || format!("at most {most} steps"));
    group.demand(long >= 300, || format!("only {long} with 10 steps or more"));
    group.demand(full >= 50, || format!("only {full} with 30 names"));
}

/// The whole's bound is enough, a byte less is 24, however small the part is.
fn lengths(group: &mut Group, library: Library, random: &mut Random, counts: &mut Counts) {
    let (mut steps, mut smaller) = (0, 0);
    for round in 0..800 {
        let (mut draft, right) = match round % 25 {
            0 => chain(random),
            _ => (small(random), 0),
        };
        let list = left_out(random, &mut draft);
        let file = draft.file();
        let question = Question::new(&file, right).without(&list);
        let (whole, part) = (needed(&file), needed(&part(&file, &list)));
        smaller += u64::from(part < whole);
        for length in [0, random.below(whole), whole - 1, part.min(whole - 1)] {
            let (account, _) = compare(group, library, random, question, length);
            counts.add(account.code);
            group.demand(account.code == 24, || {
                format!("{length} bytes: {account:?}")
            });
        }
        for length in [whole, whole + 1] {
            let (account, _) = compare(group, library, random, question, length);
            counts.add(account.code);
            let good = matches!(account.code, SAFE | UNSAFE);
            group.demand(good, || format!("{length} bytes: {account:?}"));
            steps += u64::from(account.steps > 0);
        }
    }
    group.demand(steps >= 300, || format!("only {steps} with steps"));
    group.demand(smaller >= 500, || {
        format!("only {smaller} with a smaller part")
    });
}

/// The empty list gives what the judge gives, refused or not, byte for byte.
fn nobody(group: &mut Group, library: Library, judge: Judge, random: &mut Random) {
    let mut counts = Counts::default();
    while group.inputs < 6_000 {
        let (file, right, length) = match group.inputs % 4 {
            0 => (wrong_file(random).0, random.below(16) as u8, BUFFER),
            1 => {
                let mut draft = small(random);
                let length = obstruct(random, &mut draft).0;
                (draft.file(), random.below(3) as u8, length)
            }
            2 if random.percent(20) => {
                let (draft, right) = match random.percent(50) {
                    true => chain(random),
                    false => large(random),
                };
                (draft.file(), right, BUFFER)
            }
            _ => {
                let file = small(random).file();
                let length = needed(&file) + random.below(7);
                (file, 0, length)
            }
        };
        let mut one = random.bytes(length);
        let mut other = one.clone();
        let question = Question::new(&file, right);
        let answer = (library.judge)(question, &mut one);
        let judged = judge(&file, right, &mut other);
        counts.add(answer.0);
        group.input(answer == judged && one == other, || {
            format!("{answer:?}, the judge {judged:?}: {}", question.shown())
        });
    }
    counts.demand(group, &[SAFE, 1, 9, 21, 22, 23, 24, UNSAFE], 50);
}
