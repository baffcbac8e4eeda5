//! 43 on both sides of its bound, before all else; and what the file, the rules,
//! the names and the buffer are refused for, entry by entry.

use super::compare::{compare, Library};
use super::{any_entries, with_rest};
use reference::desk::BUFFER;
use reference::file::RIGHTS;
use reference::generate::*;
use reference::judge::{SAFE, UNSAFE};
use reference::obstacles::{obstruct, wrong_file};
use reference::random::Random;
use reference::report::{Counts, Group, Report};
use reference::sheet::{ENTRY, MOST_ENTRIES};
use reference::verdict::needed;

pub fn run(report: &mut Report, library: Library, random: &mut Random, counts: &mut Counts) {
    report.group("43: every length of a sheet", 2_400, |group| {
        bounds(group, library, random)
    });
    report.group("43 before every other refusal", 4_000, |group| {
        first_of_all(group, library, random)
    });
    report.group("wrong files", 6_000, |group| {
        wrong_files(group, library, random, counts)
    });
    report.group("refusals 21 to 24 in their order", 6_000, |group| {
        order(group, library, random, counts)
    });
    report.group("any bytes", 3_000, |group| any(group, library, random));
}

/// Lengths in bytes up to 300 entries, on a file that is accepted and on one
/// that is not.
fn bounds(group: &mut Group, library: Library, random: &mut Random) {
    let good = small(random).file();
    let bad = wrong_file(random).0;
    for length in 0..ENTRY * 300 {
        for file in [&good, &bad] {
            let mut entries = random.bytes(length);
            for entry in entries.chunks_exact_mut(ENTRY) {
                entry[0] = 0;
            }
            let outcome = compare(group, library, random, file, &entries, 2_000);
            let many = length >= ENTRY * (MOST_ENTRIES + 1);
            group.demand(outcome.code == if many { 43 } else { 0 }, || {
                format!("{length} bytes: {}", outcome.code)
            });
        }
    }
}

/// How many entries are too many; some of these numbers are small in fewer bits.
fn too_many(random: &mut Random) -> usize {
    match random.below(12) {
        0 => random.pick(&[256, 257, 264, 512]),
        1 => random.pick(&[16_384, 16_385, 65_536, 65_537, 65_544]),
        2..=4 => random.between(10, 40),
        _ => MOST_ENTRIES + 1,
    }
}

/// Whatever file, rights and buffer are.
fn first_of_all(group: &mut Group, library: Library, random: &mut Random) {
    let mut bad = 0;
    while group.inputs < 4_000 {
        let (file, length) = match random.percent(50) {
            true => (wrong_file(random).0, random.pick(&[0, 200, BUFFER])),
            false => {
                let mut draft = small(random);
                let length = obstruct(random, &mut draft).0;
                (draft.file(), length)
            }
        };
        bad += u64::from(reference::file::check(&file) != 0);
        let count = too_many(random);
        let entries = any_entries(random, 2, count);
        let entries = with_rest(random, entries);
        let outcome = compare(group, library, random, &file, &entries, length);
        group.demand(outcome.code == 43, || {
            format!("{count} entries: {}", outcome.code)
        });
    }
    group.demand(bad >= 1_500, || format!("only {bad} with a wrong file"));
}

/// Each entry has the file's refusal, whatever its right and its part are.
fn wrong_files(group: &mut Group, library: Library, random: &mut Random, counts: &mut Counts) {
    while group.inputs < 6_000 {
        let (file, fault) = wrong_file(random);
        let count = random.below(MOST_ENTRIES + 1);
        let entries = any_entries(random, RIGHTS, count);
        let entries = with_rest(random, entries);
        let length = random.pick(&[0, 10, 200, BUFFER]);
        let outcome = compare(group, library, random, &file, &entries, length);
        for answer in outcome.answers() {
            counts.add(answer.0);
            group.demand(answer == (fault.refusal(), 0), || {
                format!("reference {answer:?}, {fault:?} was planted")
            });
        }
    }
}

/// The first in the order is the entry's answer: 21 where its own right is not
/// there, else what all entries share.
fn order(group: &mut Group, library: Library, random: &mut Random, counts: &mut Counts) {
    let mut mixed = 0;
    while group.inputs < 6_000 {
        let mut draft = small(random);
        let (length, planted) = obstruct(random, &mut draft);
        let count = random.between(1, MOST_ENTRIES);
        let entries = any_entries(random, draft.rights, count);
        let file = draft.file();
        // What is too short for one call is so for each part.
        let length = match planted.contains(&24) {
            true => length,
            false => count * needed(&file),
        };
        let outcome = compare(group, library, random, &file, &entries, length);
        let answers: Vec<(u8, u16)> = outcome.answers().collect();
        for (entry, &(code, _)) in outcome.entries.chunks_exact(ENTRY).zip(&answers) {
            counts.add(code);
            let good = match planted.first() {
                _ if entry[0] >= draft.rights => code == 21,
                Some(&first) => code == first,
                None => matches!(code, SAFE | UNSAFE),
            };
            group.demand(good, || {
                format!("reference {code} of {}, {planted:?} planted", entry[0])
            });
        }
        let has = |refused: bool| answers.iter().any(|answer| (answer.0 == 21) == refused);
        mixed += u64::from(has(true) && has(false));
    }
    group.demand(mixed >= 1_000, || {
        format!("only {mixed} with 21 and others")
    });
}

/// Bytes by chance as entries and as files.
fn any(group: &mut Group, library: Library, random: &mut Random) {
    let mut answered = 0;
    while group.inputs < 3_000 {
        let file = match random.below(4) {
            0 => {
                let length = random.pick(&[0, 1, 2, 9, 2_096, 5_000]);
                random.bytes(length)
            }
            _ => small(random).file(),
        };
        let length = random.below(45);
        let mut entries = random.bytes(length);
        for byte in &mut entries {
            *byte %= random.pick(&[2, 3, 255]);
        }
        let length = random.pick(&[0, 500, 1_500, 3_000]) + random.below(9);
        let outcome = compare(group, library, random, &file, &entries, length);
        answered += u64::from(outcome.answers().any(|(_, steps)| steps > 0) && outcome.code == 0);
    }
    group.demand(answered >= 300, || format!("only {answered} with steps"));
}
