//! Several rights in one question: however many there are, in whatever order and
//! with whichever repeated or refused, each gets the verdict and the steps that
//! it gets alone, from the library's single calls.

use super::stories::single;
use reference::file;
use reference::generate::{chain, large, small};
use reference::random::Random;
use reference::report::{hex, Report};
use reference::trusted::any_names;
use tugcaphi::house::decode::decode;
use tugcaphi::library::{self, Judgement};
use tugcaphi::limits::{BUFFER_BYTES, SHEET_RIGHTS};
use tugcaphi::verdict::{judge, Ruling, Verdict};

pub fn run(report: &mut Report, seed: u64) {
    let mut random = Random::new(seed ^ 0xC17);
    let random = &mut random;
    report.group("several rights as one by one", 600, |group| {
        // Safe, unsafe and refused, each on a sheet behind the first.
        let mut seen = [0; 3];
        while group.inputs < 600 {
            let draft = single(random, |random| match random.below(3) {
                0 => large(random).0,
                1 => chain(random).0,
                _ => small(random),
            });
            let file = draft.file();
            let matrix = file::read(&file).expect("an accepted file").matrix;
            let without = match random.percent(30) {
                true => any_names(random, &matrix),
                false => Vec::new(),
            };
            let count = random.pick(&[1, 2, 7, 8, 9, 15, 16, 17, 25]);
            let right = |random: &mut Random| match random.below(8) {
                0 => random.pick(&[draft.rights, file::RIGHTS, 255]),
                _ => random.below(usize::from(draft.rights)) as u8,
            };
            let rights: Vec<u8> = (0..count).map(|_| right(random)).collect();
            let verdicts = judge(&file, &decode(&file), &rights, &without);
            let verdicts = verdicts.expect("steps that can be done");
            let wrong = differing(&file, &rights, &without, &verdicts);
            group.input(wrong.is_none(), || {
                format!("{wrong:?}: {rights:?} without {without:?}, {}", hex(&file))
            });
            for verdict in verdicts.iter().skip(SHEET_RIGHTS) {
                seen[match verdict.ruling {
                    Ruling::Safe(_) => 0,
                    Ruling::Unsafe(_) => 1,
                    Ruling::Refused(_) => 2,
                }] += 1;
            }
        }
        group.demand(seen.iter().all(|&count| count >= 200), || {
            format!("safe, unsafe, refused on later sheets: {seen:?}")
        });
    });
}

/// The number of the first verdict that is not the single call's.
fn differing(file: &[u8], rights: &[u8], without: &[u8], verdicts: &[Verdict]) -> Option<usize> {
    let alone = |&right: &u8| {
        let mut buffer = vec![0; BUFFER_BYTES];
        let judgement = match without {
            [] => library::judge(file, right, &mut buffer),
            names => library::judge_part(file, right, names, &mut buffer),
        };
        let (code, steps) = match judgement {
            Judgement::Safe(steps) => (0, steps),
            Judgement::Unsafe(steps) => (255, steps),
            Judgement::Refused(refusal) => (refusal, 0),
        };
        (right, code, buffer[..5 * steps as usize].to_vec())
    };
    let told = |verdict: &Verdict| {
        let code = match verdict.ruling {
            Ruling::Safe(_) => 0,
            Ruling::Unsafe(_) => 255,
            Ruling::Refused(refusal) => refusal,
        };
        (verdict.right, code, verdict.trace.clone())
    };
    let wanted: Vec<_> = rights.iter().map(alone).collect();
    let told: Vec<_> = verdicts.iter().map(told).collect();
    let most = wanted.len().max(told.len());
    (0..most).find(|&number| wanted.get(number) != told.get(number))
}
