//! Compares the verified library's answer to a sheet of questions (request C-17)
//! with cases by hand, with the reference, and with single calls of the judge.

#[path = "../../boundary/judge.rs"]
mod boundary_judge;
#[path = "../../boundary/sheet.rs"]
mod boundary_sheet;
mod cases;
mod compare;
mod refusals;

use compare::{compare, Library, Outcome};
use reference::file::RIGHTS;
use reference::generate::*;
use reference::judge::{SAFE, UNSAFE};
use reference::random::Random;
use reference::report::{Arguments, Counts, Group, Report};
use reference::second;
use reference::sheet::{ENTRY, MOST_ENTRIES};
use reference::verdict::needed;

fn main() {
    let arguments = Arguments::read("sheet");
    let library = match arguments.own {
        true => Library {
            sheet: second::sheet,
            judge: second::judge,
        },
        false => Library {
            sheet: boundary_sheet::sheet,
            judge: boundary_judge::judge,
        },
    };
    let mut random = Random::new(arguments.seed);
    let random = &mut random;
    let mut report = Report::default();
    let mut counts = Counts::default();

    cases::run(&mut report, library, random);
    refusals::run(&mut report, library, random, &mut counts);
    report.group("sheets on tiny tables", 12_000, |group| {
        tiny(group, library, random, &mut counts)
    });
    report.group("sheets on larger tables", 500, |group| {
        larger(group, library, random, &mut counts)
    });
    report.group("buffer lengths", 6_000, |group| {
        lengths(group, library, random, &mut counts)
    });
    report.group("each answer was seen", 16, |group| {
        let answers = [SAFE, 1, 2, 3, 4, 5, 6, 7, 8, 9, 21, 22, 23, 24, 44, UNSAFE];
        counts.demand(group, &answers, 100);
    });
    counts.print("answers of entries (0 is safe, 255 is unsafe)");
    report.finish();
}

/// Entries with any bytes in the places for answers. Rights are mostly the
/// file's, often the same again, and now and then none of its.
fn any_entries(random: &mut Random, rights: u8, count: usize) -> Vec<u8> {
    let mut entries = random.bytes(ENTRY * count);
    let same = random.below(usize::from(rights)) as u8;
    for entry in entries.chunks_exact_mut(ENTRY) {
        entry[0] = match random.below(10) {
            0 => random.pick(&[rights, RIGHTS, 31, 128, 255]),
            1..=3 => same,
            _ => random.below(usize::from(rights)) as u8,
        };
    }
    entries
}

/// Now and then with bytes behind the last whole entry.
fn with_rest(random: &mut Random, mut entries: Vec<u8>) -> Vec<u8> {
    let rest = random.pick(&[0, 0, 0, 1, 2, 3]);
    entries.extend(random.bytes(rest));
    entries
}

/// What the sheets came by.
#[derive(Default)]
struct Mix {
    /// By the number of entries.
    entries: [u64; MOST_ENTRIES + 1],
    /// Safe and unsafe on one sheet.
    both: u64,
    /// 21 before an answered entry that writes steps.
    beside_refused: u64,
    /// The same right twice, with steps both times.
    repeated: u64,
    /// Bytes left over, the last entry with steps.
    left_over: u64,
    /// Bytes behind the last whole entry.
    rest: u64,
}

impl Mix {
    fn add(&mut self, outcome: &Outcome) {
        let answers: Vec<(u8, u16)> = outcome.answers().collect();
        let count = answers.len();
        let has = |code: u8| answers.iter().any(|answer| answer.0 == code);
        let steps = |number: &usize| answers[*number].1 > 0;
        let first_refused = answers.iter().position(|answer| answer.0 == 21);
        let right = |number: usize| outcome.entries[ENTRY * number];
        let twice = |&i: &usize| (0..i).any(|j| right(i) == right(j)) && steps(&i);
        self.entries[count] += 1;
        self.both += u64::from(has(SAFE) && has(UNSAFE));
        self.beside_refused +=
            u64::from(first_refused.is_some_and(|first| (first + 1..count).any(|i| steps(&i))));
        self.repeated += u64::from((0..count).any(|i| twice(&i)));
        self.left_over +=
            u64::from(count > 0 && outcome.buffer.len() % count > 0 && steps(&(count - 1)));
        self.rest += u64::from(outcome.entries.len() % ENTRY > 0);
    }

    fn demand(&self, group: &mut Group, fewest: u64) {
        let counts = [
            (self.both, "with safe and unsafe"),
            (self.beside_refused, "with 21 before steps"),
            (self.repeated, "with steps of a right twice"),
            (self.left_over, "with bytes left over behind steps"),
            (self.rest, "with bytes behind the entries"),
        ];
        let told = counts.map(|(count, what)| format!("{count} {what}"));
        println!("  by entries {:?}; {}", self.entries, told.join(", "));
        for (count, what) in counts {
            group.demand(count >= fewest, || format!("only {count} {what}"));
        }
        for (entries, &count) in self.entries.iter().enumerate() {
            group.demand(count >= fewest, || {
                format!("only {count} with {entries} entries")
            });
        }
    }
}

/// The length of a buffer in which each of so many parts has what it needs, a
/// bit more, and some bytes are left over.
fn room(random: &mut Random, needed: usize, count: usize) -> usize {
    let part = needed + random.pick(&[0, 0, 1, 4, 5, 300]);
    count * part + random.below(count.max(1))
}

/// One sheet on an accepted file.
fn one(
    group: &mut Group,
    library: Library,
    random: &mut Random,
    draft: &Draft,
    mix: &mut Mix,
    counts: &mut Counts,
) -> Outcome {
    let file = draft.file();
    let count = random.below(MOST_ENTRIES + 1);
    let entries = any_entries(random, draft.rights, count);
    let entries = with_rest(random, entries);
    let length = room(random, needed(&file), count);
    let outcome = compare(group, library, random, &file, &entries, length);
    for (code, _) in outcome.answers() {
        counts.add(code);
    }
    mix.add(&outcome);
    outcome
}

fn tiny(group: &mut Group, library: Library, random: &mut Random, counts: &mut Counts) {
    let mut mix = Mix::default();
    while group.inputs < 12_000 {
        let draft = small(random);
        one(group, library, random, &draft, &mut mix, counts);
    }
    mix.demand(group, 1_000);
}

/// Up to 30 names and many rounds.
fn larger(group: &mut Group, library: Library, random: &mut Random, counts: &mut Counts) {
    let mut mix = Mix::default();
    let (mut most, mut high) = (0, 0);
    while group.inputs < 500 {
        let draft = match group.inputs % 3 {
            0 => chain(random).0,
            1 => busy_chain(random).0,
            _ => large(random).0,
        };
        let outcome = one(group, library, random, &draft, &mut mix, counts);
        let steps = outcome.answers().map(|answer| answer.1).max().unwrap_or(0);
        most = most.max(steps);
        high += u64::from(steps > 255);
    }
    println!("  at most {most} steps, {high} sheets with a count of two bytes");
    mix.demand(group, 20);
    group.demand(high >= 20, || format!("only {high} with 256 steps"));
}

/// On both sides of the bound: n times what a call needs, and a byte less, which
/// leaves each entry a byte short and n - 1 bytes over.
fn lengths(group: &mut Group, library: Library, random: &mut Random, counts: &mut Counts) {
    let mut steps = 0;
    for round in 0..1_000 {
        let draft = match round % 50 {
            0 => chain(random).0,
            _ => small(random),
        };
        let file = draft.file();
        let needed = needed(&file);
        let count = random.between(1, MOST_ENTRIES);
        let mut entries = random.bytes(ENTRY * count);
        for entry in entries.chunks_exact_mut(ENTRY) {
            entry[0] = random.below(usize::from(draft.rights)) as u8;
        }
        let short = count * needed - 1;
        for length in [0, count - 1, random.below(short), short] {
            let outcome = compare(group, library, random, &file, &entries, length);
            let good = outcome.answers().all(|answer| answer == (24, 0));
            group.demand(good, || format!("{length} bytes for {count} entries"));
        }
        for length in [short + 1, short + count, short + 1 + count] {
            let outcome = compare(group, library, random, &file, &entries, length);
            for (code, written) in outcome.answers() {
                counts.add(code);
                steps += u64::from(written > 0);
                let good = matches!(code, SAFE | UNSAFE);
                group.demand(good, || format!("{code} with {length} for {count}"));
            }
        }
    }
    group.demand(steps >= 1_000, || format!("only {steps} with steps"));
}
