//! The places of refusals 1 to 9 and 44: the walk beside the proved reader comes to the
//! same number on every file, and to the byte that was broken.

use reference::damage::{plant, Fault};
use reference::file::{CELLS, FIXED_PAIRS, RIGHTS, SET_BYTES};
use reference::generate::{any, joined, lively, small, Draft};
use reference::random::Random;
use reference::report::{hex, Counts, Group, Report};
use tugcaphi::house::place::{of_refusal, walk, Place};
use tugcaphi::library::check;

/// The refusals of whoever wrote a file.
const FILES: [u8; 10] = [1, 2, 3, 4, 5, 6, 7, 8, 9, 44];

pub fn run(report: &mut Report, seed: u64) {
    let mut random = Random::new(seed ^ 0x91ACE);
    let random = &mut random;
    report.group("the walk agrees with the proved reader", 30_000, |group| {
        agreement(group, random)
    });
    report.group("the place is the byte that was broken", 10_000, |group| {
        for refusal in FILES.into_iter().cycle().take(10_000) {
            let draft = with_rules(random);
            let (file, at) = broken(random, &draft, refusal);
            let place = of_refusal(&file, refusal);
            let offset = place.as_ref().map(|place| place.offset);
            group.input(check(&file) == refusal && offset == Some(at), || {
                format!("{refusal} at byte {at}: {place:?} in {}", hex(&file))
            });
            let told = place.is_none_or(|place| tells(&place, &file));
            group.demand(told, || format!("{refusal}: what stands there is not told"));
        }
    });
    report.group(
        "no place where the walk finds another number",
        10,
        |group| {
            for refusal in FILES {
                let draft = with_rules(random);
                let (file, _) = broken(random, &draft, refusal);
                let mut others = (0..=255).filter(|&other| other != refusal);
                let none = others.all(|other| of_refusal(&file, other).is_none());
                group.input(none, || {
                    format!("a place of {refusal} told for another number")
                });
            }
        },
    );
}

fn agreement(group: &mut Group, random: &mut Random) {
    let mut counts = Counts::default();
    for i in 0..30_000 {
        let file = a_file(random, i);
        let wanted = check(&file);
        counts.add(wanted);
        let found = walk(&file).err().map_or(0, |fault| fault.refusal);
        group.input(found == wanted, || {
            format!("the walk says {found}, the reader {wanted}: {}", hex(&file))
        });
    }
    counts.print("  refusals");
    counts.demand(group, &[&[0][..], &FILES].concat(), 100);
}

fn a_draft(random: &mut Random) -> Draft {
    match random.below(3) {
        0 => any(random),
        1 => lively(random),
        _ => small(random),
    }
}

/// A file that has a subject and a rule with a condition, to have something to break.
fn with_rules(random: &mut Random) -> Draft {
    loop {
        let mut draft = a_draft(random);
        draft.kinds[4] = 2;
        if draft.rules.iter().any(|rule| rule[1] > 0) && draft.rules.len() < 32 {
            return draft;
        }
    }
}

/// Accepted, with faults planted, or with bytes changed at random.
fn a_file(random: &mut Random, i: u64) -> Vec<u8> {
    let draft = a_draft(random);
    if i.is_multiple_of(3) {
        let faults: Vec<Fault> = (0..random.between(1, 2))
            .map(|_| Fault::any(random, draft.rules.len()))
            .collect();
        return plant(random, &draft, &faults);
    }
    let mut file = draft.file();
    for _ in 0..random.below(3) {
        let at = match random.percent(50) {
            true => random.below(file.len().min(80)),
            false => random.below(file.len()),
        };
        file[at] = random.byte();
    }
    if random.percent(10) {
        file.truncate(random.below(file.len() + 1));
    }
    if random.percent(5) {
        file.resize(random.between(1, 5000), 1);
    }
    file
}

/// A file with one fault, and the byte where it is.
fn broken(random: &mut Random, draft: &Draft, refusal: u8) -> (Vec<u8>, usize) {
    let mut file = draft.file();
    let pairs = FIXED_PAIRS + draft.rules.len();
    match refusal {
        1 => {
            let length = random.pick(&[0, 1, 2, 5, 1 + 4 * pairs]);
            file.truncate(length);
            (file, length)
        }
        5 => {
            let mut sections = draft.sections();
            let rule = FIXED_PAIRS + random.below(draft.rules.len());
            let section = random.pick(&[0, 1, 2, rule]);
            sections[section].push(0);
            (joined(draft.rights, &sections), 4 + 4 * section)
        }
        _ => {
            let (at, byte) = wrong_byte(random, draft, refusal);
            file[at] = byte;
            // A set that is wrong by its second byte is told at its first, which is even.
            let high = matches!(refusal, 7 | 44) && at % SET_BYTES == 1;
            (file, at - usize::from(high))
        }
    }
}

/// A byte that breaks a file, and where.
fn wrong_byte(random: &mut Random, draft: &Draft, refusal: u8) -> (usize, u8) {
    let file = draft.file();
    let pairs = FIXED_PAIRS + draft.rules.len();
    let kinds = 2 + 4 * pairs;
    let cells = kinds + 32;
    let carries = cells + SET_BYTES * CELLS;
    let start = |rule: usize| {
        let pair = 2 + 4 * (FIXED_PAIRS + rule);
        usize::from(file[pair]) + 256 * usize::from(file[pair + 1])
    };
    let rule = random.below(draft.rules.len());
    let tested = draft.rules.iter().position(|rule| rule[1] > 0).unwrap_or(0);
    match refusal {
        2 => (0, random.pick(&[0, RIGHTS + 1, 200])),
        3 => (1, random.pick(&[0, 2, 36, 255])),
        4 => {
            let at = 2 + 4 * random.below(pairs);
            (at, file[at].wrapping_add(1))
        }
        6 => (kinds + random.below(32), random.between(3, 255) as u8),
        7 => match draft.kinds.iter().position(|&kind| kind == 0) {
            Some(absent) if random.percent(50) => {
                let byte = random.below(SET_BYTES);
                (cells + SET_BYTES * (32 * absent + 4) + byte, 1)
            }
            _ => with_bit(
                random,
                draft.rights,
                &file,
                cells + SET_BYTES * (32 * 4 + 4),
            ),
        },
        8 => {
            let (field, byte) = random.pick(&[(0, 0), (0, 5), (1, 5), (2, 0), (2, 7)]);
            (start(rule) + field, byte)
        }
        44 => {
            let right = random.below(usize::from(draft.rights));
            with_bit(random, draft.rights, &file, carries + SET_BYTES * right)
        }
        _ if random.percent(50) => (start(tested) + 3, draft.rights),
        _ => {
            let conditions = usize::from(draft.rules[rule][1]);
            let kind = random.pick(&[0, 7, 255]);
            (start(rule) + 3 + 3 * conditions, kind)
        }
    }
}

/// The set that begins here with a bit from g on, up to bit 15: its byte, and where.
fn with_bit(random: &mut Random, rights: u8, file: &[u8], set: usize) -> (usize, u8) {
    let bit = random.between(usize::from(rights), 15);
    let at = set + bit / 8;
    (at, file[at] | 1 << (bit % 8))
}

/// Whether the place says what stands there: the byte, the two bytes of an
/// offset or length, or the length of a file that has ended.
fn tells(place: &Place, file: &[u8]) -> bool {
    let byte = |at: usize| file.get(at).map(|&byte| usize::from(byte));
    let one = byte(place.offset);
    let two = one
        .zip(byte(place.offset + 1))
        .map(|(low, high)| low + 256 * high);
    let told = place.found.split(|c: char| !c.is_ascii_digit());
    let told: Vec<usize> = told.filter_map(|digits| digits.parse().ok()).collect();
    [one, two, Some(file.len())]
        .into_iter()
        .flatten()
        .any(|number| told.contains(&number))
}
