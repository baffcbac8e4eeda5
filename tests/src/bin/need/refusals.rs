//! 41 by each of its reasons and on both sides of each bound, and the order of
//! the refusals.

use reference::desk::BUFFER;
use reference::file;
use reference::filled::{compare, Library, Question};
use reference::generate::*;
use reference::lists::{any_cells, bytes, spoiled, REASONS};
use reference::need::{HELD, NEVER};
use reference::obstacles::{obstruct, wrong_file};
use reference::random::Random;
use reference::report::{hex, Counts, Group, Report};
use reference::verdict::needed;

pub fn run(report: &mut Report, library: Library, random: &mut Random, counts: &mut Counts) {
    report.group("41: both sides of each bound", 300, |group| {
        bounds(group, library, random)
    });
    report.group("41: each reason on random tables", 4_000, |group| {
        reasons(group, library, random, counts)
    });
    report.group("any bytes as a list", 4_000, |group| {
        any_list(group, library, random, counts)
    });
    report.group("refusals 22 to 24 and 41 in their order", 6_000, |group| {
        order(group, library, random, counts)
    });
    report.group("wrong files", 6_000, |group| {
        wrong_files(group, library, random, counts)
    });
}

/// Subjects 0 and 31, objects 1 and 30; they hold right 0 over all, so that a
/// number taken for another name would be held.
fn corners() -> Draft {
    let mut draft = Draft::empty(3);
    for (name, kind) in [(0, 2), (1, 1), (30, 1), (31, 2)] {
        draft.kinds[name] = kind;
    }
    for subject in [0, 31] {
        for name in [0, 1, 30, 31] {
            draft.put(subject, name, 0);
        }
    }
    // The name 2 comes in the first round, which is too late.
    draft.rules.push(rule(1, &[], &[[CREATE_SUBJECT, 0, 0, 0]]));
    draft
}

fn bounds(group: &mut Group, library: Library, random: &mut Random) {
    let file = corners().file();
    let good = [0, 0, 1];
    // One cell, and the answer; in every place of lists of every length.
    let cells: [([u8; 3], u8); 28] = [
        ([0, 0, 1], HELD),
        ([2, 0, 1], NEVER),
        ([3, 0, 1], 41),
        ([8, 0, 1], 41),
        ([12, 0, 1], 41),
        ([255, 0, 1], 41),
        ([0, 0, 0], HELD),
        ([0, 31, 0], HELD),
        ([0, 31, 31], HELD),
        ([0, 1, 0], 41),
        ([0, 30, 0], 41),
        ([0, 1, 1], 41),
        ([0, 2, 0], 41),
        ([0, 29, 0], 41),
        ([0, 32, 0], 41),
        ([0, 63, 0], 41),
        ([0, 64, 0], 41),
        ([0, 255, 0], 41),
        ([0, 0, 30], HELD),
        ([0, 0, 31], HELD),
        ([0, 0, 2], 41),
        ([0, 31, 29], 41),
        ([0, 0, 32], 41),
        ([0, 0, 33], 41),
        ([0, 0, 63], 41),
        ([0, 0, 64], 41),
        ([0, 0, 128], 41),
        ([0, 0, 255], 41),
    ];
    let mut ask = |list: &[u8], wanted: u8| {
        let question = Question::new(&file, list);
        let account = compare(group, library, random, question, needed(&file));
        group.demand(account.code == wanted, || {
            format!("{account:?}, wanted {wanted}: {list:?}")
        });
    };
    for (cell, wanted) in cells {
        for count in [1, 2, 8] {
            for at in [0, count / 2, count - 1] {
                let mut list = vec![good; count];
                list[at] = cell;
                ask(&list.concat(), wanted);
            }
        }
    }
    for cells in 0..=20 {
        let whole = good.repeat(cells);
        ask(&whole, if cells > 8 { 41 } else { HELD });
        for more in 1..=2 {
            ask(&[&whole[..], &good[..more]].concat(), 41);
        }
    }
}

fn reasons(group: &mut Group, library: Library, random: &mut Random, counts: &mut Counts) {
    let mut seen = [0; REASONS.len()];
    while group.inputs < 4_000 {
        let draft = match random.below(3) {
            0 => large(random).0,
            _ => small(random),
        };
        let file = draft.file();
        let contents = file::read(&file).unwrap();
        let cells = any_cells(random, &contents, &contents.matrix);
        let which = random.below(REASONS.len());
        let Some(list) = spoiled(random, &contents, &cells, REASONS[which]) else {
            continue;
        };
        let question = Question::new(&file, &list);
        let account = compare(group, library, random, question, needed(&file));
        counts.add(account.code);
        seen[which] += 1;
        group.demand(account.code == 41, || {
            format!(
                "{account:?} for {:?}: {list:?}, {}",
                REASONS[which],
                hex(&file)
            )
        });
    }
    for (reason, count) in REASONS.iter().zip(seen) {
        group.demand(count >= 150, || format!("only {count} of {reason:?}"));
    }
}

/// Bytes by chance, small ones mostly, so that many lists are good.
fn any_list(group: &mut Group, library: Library, random: &mut Random, counts: &mut Counts) {
    let mut good = 0;
    while group.inputs < 4_000 {
        let draft = small(random);
        let file = draft.file();
        let names: Vec<u8> = (0..32)
            .filter(|&n| draft.kinds[usize::from(n)] > 0)
            .collect();
        let length = random.pick(&[0, 1, 2, 3, 3, 3, 6, 6, 9, 12, 23, 24, 24, 25, 27, 300]);
        let byte = |random: &mut Random, at: usize| match random.below(40) {
            0 => random.byte(),
            1 => random.below(33) as u8,
            _ if at.is_multiple_of(3) || names.is_empty() => random.below(2) as u8,
            _ => random.pick(&names),
        };
        let list: Vec<u8> = (0..length).map(|at| byte(random, at)).collect();
        let question = Question::new(&file, &list);
        let account = compare(group, library, random, question, needed(&file));
        counts.add(account.code);
        good += u64::from(account.code != 41);
    }
    group.demand((1_000..3_500).contains(&good), || {
        format!("{good} lists can be asked for")
    });
}

/// The first in the order is the answer.
fn order(group: &mut Group, library: Library, random: &mut Random, counts: &mut Counts) {
    let mut several = 0;
    while group.inputs < 6_000 {
        let mut draft = small(random);
        let contents = file::read(&draft.file()).unwrap();
        let mut list = bytes(&any_cells(random, &contents, &contents.matrix));
        let (length, mut planted) = obstruct(random, &mut draft);
        if random.percent(58) {
            // Part of a cell, or a right that is not there.
            let count = random.pick(&[1, 3]);
            list.extend(&[draft.rights, 0, 0][..count]);
            planted.push(41);
        }
        let Some(&first) = planted.first() else {
            continue;
        };
        several += u64::from(planted.len() > 1);
        let file = draft.file();
        let question = Question::new(&file, &list);
        let account = compare(group, library, random, question, length);
        counts.add(account.code);
        group.demand(account.code == first, || {
            format!("reference {account:?}, {planted:?} were planted")
        });
    }
    group.demand(several >= 2_000, || format!("only {several} with several"));
}

/// The file's refusal comes before all others, whatever list and buffer are.
fn wrong_files(group: &mut Group, library: Library, random: &mut Random, counts: &mut Counts) {
    while group.inputs < 6_000 {
        let (file, fault) = wrong_file(random);
        let list_length = random.pick(&[0, 0, 1, 3, 6, 24, 27]);
        let list = random.bytes(list_length);
        let length = random.pick(&[0, 10, 200, BUFFER]);
        let question = Question::new(&file, &list);
        let account = compare(group, library, random, question, length);
        counts.add(account.code);
        group.demand(account.code == fault.refusal(), || {
            format!("reference {account:?}, {fault:?} was planted")
        });
    }
}
