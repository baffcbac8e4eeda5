//! 42 by each of its reasons and on both sides of each bound, and the order of
//! the refusals.

use reference::desk::BUFFER;
use reference::file::{self, RIGHTS};
use reference::generate::*;
use reference::judge::{SAFE, UNSAFE};
use reference::obstacles::{obstruct, wrong_file};
use reference::random::Random;
use reference::report::{Counts, Group, Report};
use reference::trusted::{any_names, spoiled, REASONS};
use reference::verdict::{compare, needed, Library, Question};

pub fn run(report: &mut Report, library: Library, random: &mut Random, counts: &mut Counts) {
    report.group("42: every byte in every place", 3_800, |group| {
        bounds(group, library, random)
    });
    report.group("42: each reason on random tables", 4_000, |group| {
        reasons(group, library, random, counts)
    });
    report.group("any bytes as a list", 4_000, |group| {
        any_list(group, library, random, counts)
    });
    report.group("refusals 21 to 24 and 42 in their order", 8_000, |group| {
        order(group, library, random, counts)
    });
    report.group("wrong files", 6_000, |group| {
        wrong_files(group, library, random, counts)
    });
}

/// Subjects 0 and 31, objects 1 and 30, and a rule by which 2 would come.
fn corners() -> Draft {
    let mut draft = Draft::empty(1);
    for (name, kind) in [(0, 2), (1, 1), (30, 1), (31, 2)] {
        draft.kinds[name] = kind;
    }
    draft.rules.push(rule(1, &[], &[[CREATE_SUBJECT, 0, 0, 0]]));
    draft
}

/// Each byte alone, first, between and last, with names of the table beside it.
fn bounds(group: &mut Group, library: Library, random: &mut Random) {
    let file = corners().file();
    let exist = [0, 1, 30, 31];
    let mut ask = |list: &[u8], wanted: u8| {
        let question = Question::new(&file, 0).without(list);
        let (account, _) = compare(group, library, random, question, needed(&file));
        group.demand(account.code == wanted, || {
            format!("{account:?}, wanted {wanted}: {list:?}")
        });
    };
    for byte in 0..=255 {
        for others in [&[][..], &[0], &[31, 1], &[30, 0, 1], &[1, 30, 31, 0]] {
            let there = exist.contains(&byte) && !others.contains(&byte);
            for at in 0..=others.len() {
                let list = [&others[..at], &[byte], &others[at..]].concat();
                ask(&list, if there { SAFE } else { 42 });
            }
        }
    }
    // All names of the table, and far more bytes than there are names.
    ask(&exist, SAFE);
    for count in [5, 32, 33, 255, 256, 257, 70_000] {
        let list: Vec<u8> = exist.iter().cycle().take(count).copied().collect();
        ask(&list, 42);
    }
}

fn reasons(group: &mut Group, library: Library, random: &mut Random, counts: &mut Counts) {
    let mut seen = [0; REASONS.len()];
    while group.inputs < 4_000 {
        let (draft, right) = match random.below(3) {
            0 => large(random),
            _ => (small(random), 0),
        };
        let file = draft.file();
        let matrix = file::read(&file).unwrap().matrix;
        let names = any_names(random, &matrix);
        let which = random.below(REASONS.len());
        let Some(list) = spoiled(random, &matrix, &names, REASONS[which]) else {
            continue;
        };
        let question = Question::new(&file, right).without(&list);
        let (account, _) = compare(group, library, random, question, needed(&file));
        counts.add(account.code);
        seen[which] += 1;
        group.demand(account.code == 42, || {
            format!("{account:?} for {:?}: {}", REASONS[which], question.shown())
        });
    }
    for (reason, count) in REASONS.iter().zip(seen) {
        group.demand(count >= 500, || format!("only {count} of {reason:?}"));
    }
}

/// Bytes by chance, mostly names of the table, so that many lists are good.
fn any_list(group: &mut Group, library: Library, random: &mut Random, counts: &mut Counts) {
    let mut good = 0;
    while group.inputs < 4_000 {
        let draft = small(random);
        let file = draft.file();
        let names: Vec<u8> = (0..32)
            .filter(|&n| draft.kinds[usize::from(n)] > 0)
            .collect();
        let length = random.pick(&[0, 1, 1, 1, 2, 2, 3, 4, 40]);
        let byte = |random: &mut Random| match random.below(12) {
            0 => random.byte(),
            1 => random.below(33) as u8,
            _ if names.is_empty() => random.below(2) as u8,
            _ => random.pick(&names),
        };
        let list: Vec<u8> = (0..length).map(|_| byte(random)).collect();
        let question = Question::new(&file, 0).without(&list);
        let (account, _) = compare(group, library, random, question, needed(&file));
        counts.add(account.code);
        good += u64::from(account.code != 42);
    }
    group.demand((1_000..3_500).contains(&good), || {
        format!("{good} lists can be left out")
    });
}

/// The first in the order is the answer.
fn order(group: &mut Group, library: Library, random: &mut Random, counts: &mut Counts) {
    let mut several = 0;
    let mut alone = 0;
    while group.inputs < 8_000 {
        let mut draft = small(random);
        let mut right = random.below(draft.rights as usize) as u8;
        let (length, mut planted) = obstruct(random, &mut draft);
        let file = draft.file();
        let matrix = file::read(&file).unwrap().matrix;
        let mut list = any_names(random, &matrix);
        if random.percent(20) {
            right = random.pick(&[draft.rights, RIGHTS, 31, 255]);
            planted.insert(0, 21);
        }
        if random.percent(60) {
            let reason = random.pick(&REASONS);
            let Some(bad) = spoiled(random, &matrix, &list, reason) else {
                continue;
            };
            list = bad;
            planted.push(42);
        }
        several += u64::from(planted.len() > 1);
        alone += u64::from(planted == [42]);
        let question = Question::new(&file, right).without(&list);
        let (account, _) = compare(group, library, random, question, length);
        counts.add(account.code);
        let good = match planted.first() {
            Some(&first) => account.code == first,
            None => matches!(account.code, SAFE | UNSAFE),
        };
        group.demand(good, || {
            format!("reference {account:?}, {planted:?} were planted")
        });
    }
    group.demand(several >= 3_000, || format!("only {several} with several"));
    group.demand(alone >= 500, || format!("only {alone} with 42 alone"));
}

/// The file's refusal comes before all others, whatever right, list and buffer
/// are.
fn wrong_files(group: &mut Group, library: Library, random: &mut Random, counts: &mut Counts) {
    while group.inputs < 6_000 {
        let (file, fault) = wrong_file(random);
        let list_length = random.pick(&[0, 0, 1, 1, 2, 30, 40]);
        let list = random.bytes(list_length);
        let right = random.below(10) as u8;
        let length = random.pick(&[0, 10, 200, BUFFER]);
        let question = Question::new(&file, right).without(&list);
        let (account, _) = compare(group, library, random, question, length);
        counts.add(account.code);
        group.demand(account.code == fault.refusal(), || {
            format!("reference {account:?}, {fault:?} was planted")
        });
    }
}
