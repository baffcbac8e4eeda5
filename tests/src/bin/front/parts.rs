//! Verdicts without trusted names, in words, pictures and pages: who was left
//! out is told, the steps are the library's, and what is drawn is the part that
//! was judged. And lists of names as the command line has them.

use super::pages::{judged, page_held, picture_held};
use super::stories::{contents, held, single, words_of};
use super::wording::Wording;
use reference::file;
use reference::generate::{chain, large, lively, small, Draft};
use reference::random::Random;
use reference::report::Report;
use reference::trusted::{any_names, office};
use reference::verdict::part;
use std::ffi::OsString;
use tugcaphi::house::decode::decode;
use tugcaphi::input::Content;
use tugcaphi::terminal::Style;
use tugcaphi::verdict::{text::lines, Ruling, Verdict};
use tugcaphi::{picture, report};

pub fn run(report: &mut Report, seed: u64) {
    let mut random = Random::new(seed ^ 0xC15);
    let random = &mut random;
    report.group("steps in words without trusted names", 400, |group| {
        let mut seen = [0; 2];
        for turn in 0..400 {
            let (draft, trusted) = with_office(random, turn);
            let file = draft.file();
            let wording = Wording::any(random, &draft);
            let (content, verdicts) = contents(&file, &wording, &trusted);
            let printed = lines(&content, &verdicts, Style::PLAIN);
            held(group, &content.words, &file, &trusted, &printed);
            let is_unsafe = |verdict: &&Verdict| matches!(verdict.ruling, Ruling::Unsafe(_));
            let leaking = verdicts.iter().filter(is_unsafe).count();
            seen[0] += leaking;
            seen[1] += verdicts.len() - leaking;
        }
        group.demand(seen.iter().all(|&count| count >= 200), || {
            format!("unsafe and safe: {seen:?}")
        });
    });
    report.group("pictures and pages without trusted names", 160, |group| {
        for turn in 0..80 {
            let (draft, trusted) = with_office(random, turn);
            let file = draft.file();
            let wording = Wording::any(random, &draft);
            let (content, verdicts) = contents(&file, &wording, &trusted);
            let shown = Content {
                house: decode(&part(&file, &trusted)),
                words: words_of(&wording),
            };
            let title = "a <table> & \"more\"";
            let svg = picture::svg(title, &content, &verdicts);
            let said = picture_held(&svg, &content, &verdicts);
            group.input(said.is_ok(), || format!("{said:?}"));
            let page = report::page(title, &content, &verdicts);
            let said = page_held(&page, &content, &shown, &verdicts);
            group.input(said.is_ok(), || format!("{said:?}"));
        }
    });
    report.group("who is left out of pictures and pages", 6, |group| {
        for (trusted, told) in [(&[][..], false), (&[0], true), (&[2, 0], true)] {
            let (content, verdicts) = judged(OFFICE.as_bytes(), trusted);
            let svg = picture::svg("office", &content, &verdicts);
            let page = report::page("office", &content, &verdicts);
            let names = match trusted {
                [0] => "Left out, with row and column: Ada<",
                _ => "Left out, with row and column: Cyd and Ada<",
            };
            // Names stand by themselves at the heads of rows and columns.
            let drawn = |text: &str, name: &str| text.contains(&format!(">{name}<"));
            for (text, meaning) in [(&svg, true), (&page, page.contains(MEANING) == told)] {
                let good = text.contains(names) == told && drawn(text, "Ada") != told;
                group.input(good && meaning && drawn(text, "Ben"), || text.clone());
            }
        }
    });
    report.group("names in a list read back", 2_000, |group| {
        while group.inputs < 2_000 {
            let draft = lively(random);
            let words = words_of(&Wording::any(random, &draft));
            let matrix = file::read(&draft.file()).expect("an accepted file").matrix;
            let names = any_names(random, &matrix);
            if names.is_empty() {
                continue;
            }
            let written = names.iter().map(|&name| words.name(usize::from(name)));
            let written: Vec<String> = written.collect();
            let list = written.join(random.pick(&[",", ", ", " , "]));
            let read = words.name_numbers(&OsString::from(&list)).ok();
            group.input(read.as_ref() == Some(&names), || {
                format!("{read:?}, wanted {names:?}: {list}")
            });
        }
    });
}

/// Ada may give to anybody; Ben passes on what he has.
const OFFICE: &str =
    "table 1\nrights own read\nsubjects Ada Ben Cyd\nobjects ink\ncell (Ada, ink): own read\n\
    cell (Ben, ink): read\nrule give (a, b, c): if own in (a, c) enter read into (b, c)\n";
const MEANING: &str = "Safe then holds as long as no rule is run with one of them.";

/// A table that the judge takes, and the names in it that are trusted.
fn with_office(random: &mut Random, turn: usize) -> (Draft, Vec<u8>) {
    loop {
        let mut draft = single(random, |random| match turn % 4 {
            0 => large(random).0,
            1 => chain(random).0,
            2 => small(random),
            _ => lively(random),
        });
        let mut trusted = office(random, &mut draft);
        if random.percent(30) {
            let matrix = file::read(&draft.file()).expect("an accepted file").matrix;
            trusted = any_names(random, &matrix);
        }
        if !trusted.is_empty() {
            return (draft, trusted);
        }
    }
}
