//! Random tables: text to file to text to file, the same bytes each time.

use super::wording::Wording;
use super::writing::text;
use reference::generate::{any, lively, longest, small, turbulent, Draft};
use reference::random::Random;
use reference::report::{hex, Report};
use std::ffi::OsStr;
use tugcaphi::house::decode::decode;
use tugcaphi::input::made;
use tugcaphi::table::{self, writer};
use tugcaphi::words::Words;

pub fn run(report: &mut Report, seed: u64, number: u64) {
    report.group(
        "random tables, text to file to text to file",
        number,
        |group| {
            let mut random = Random::new(seed ^ 0x7AB1E);
            for i in 0..number {
                let draft = a_draft(&mut random, i);
                let wording = Wording::any(&mut random, &draft);
                let text = text(&mut random, &draft, &wording);
                let said = round(&draft, &wording, &text);
                group.input(said.is_ok(), || {
                    let text = String::from_utf8_lossy(&text);
                    let wrong = said.clone().unwrap_err();
                    format!("table {i}: {wrong:.400}: {text:.400}")
                });
            }
        },
    );
}

/// Mostly small ones: the reader's work grows with the cells.
fn a_draft(random: &mut Random, i: u64) -> Draft {
    match i % 100 {
        0 => longest(random),
        1..=4 => any(random),
        5..=9 => turbulent(random),
        10..=24 => lively(random),
        _ => small(random),
    }
}

/// The whole way; what is wrong is told.
fn round(draft: &Draft, wording: &Wording, text: &[u8]) -> Result<(), String> {
    let wanted = draft.file();
    let path = OsStr::new("random.table");
    let table = table::read(text).map_err(|mistake| format!("{mistake:?}"))?;
    let (file, refusal) = made(&table, path).map_err(|failure| format!("{failure:?}"))?;
    is(refusal == 0, || format!("refused {refusal}"))?;
    is(file == wanted, || {
        format!("file {}, wanted {}", hex(&file), hex(&wanted))
    })?;
    is(decode(&file) == table.house, || {
        "the file read back is another".into()
    })?;
    same_words(&table.words, draft, wording)?;

    let again = writer::write(&table.house, &table.words);
    let second = table::read(again.as_bytes()).map_err(|m| format!("written: {m:?}: {again:?}"))?;
    is(second.words == table.words, || {
        format!("other words: {again:?}")
    })?;
    let (file, _) = made(&second, path).map_err(|failure| format!("{failure:?}"))?;
    is(file == wanted, || {
        format!("made again {}: {again:?}", hex(&file))
    })?;

    let mut words = Words::plain(&table.house);
    remade(&table.house, &words, &wanted)?;
    // A name without a word stands by its number.
    words.names = std::array::from_fn(|i| words.names[i].clone().filter(|_| i % 3 != 1));
    remade(&table.house, &words, &wanted)
}

fn remade(house: &tugcaphi::house::House, words: &Words, wanted: &[u8]) -> Result<(), String> {
    let text = writer::write(house, words);
    let table = table::read(text.as_bytes()).map_err(|m| format!("plain: {m:?}: {text:?}"))?;
    let file = tugcaphi::house::encode::encode(&table.house);
    is(file == wanted, || {
        format!("plain words, made again {}", hex(&file))
    })
}

fn same_words(words: &Words, draft: &Draft, wording: &Wording) -> Result<(), String> {
    let names: Vec<Option<String>> = wording
        .names
        .iter()
        .zip(&draft.kinds)
        .map(|(word, kind)| Some(word.clone()).filter(|_| *kind > 0))
        .collect();
    let rules: Vec<&String> = words.rules.iter().map(|rule| &rule.rule).collect();
    let blanks: Vec<Vec<String>> = words.rules.iter().map(|rule| rule.blanks.clone()).collect();
    is(words.rights == wording.rights, || {
        format!("rights {:?}", words.rights)
    })?;
    is(words.names.to_vec() == names, || {
        format!("names {:?}", words.names)
    })?;
    is(rules == wording.rules.iter().collect::<Vec<_>>(), || {
        format!("rules {rules:?}")
    })?;
    is(blanks == wording.blanks, || format!("blanks {blanks:?}"))
}

fn is(good: bool, wrong: impl FnOnce() -> String) -> Result<(), String> {
    match good {
        true => Ok(()),
        false => Err(wrong()),
    }
}
