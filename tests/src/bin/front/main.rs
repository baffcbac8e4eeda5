//! The front program `tugcaphi`: transcripts of every command, exit status and
//! mistake in a table, random tables there and back, damaged texts, the places of refusals,
//! steps in words against a replay, what a press needs in words, pictures, pages and answers for programs,
//! the same without trusted names, several rights as one by one,
//! and the examples in the docs. Arguments: the seed, the number of random
//! tables. The executable is `../target/cli/release/tugcaphi`, or TUGCAPHI names
//! it. With FRONT_BLESS set the transcripts are written anew; read the difference.

mod back;
mod blocks;
mod coverage;
mod execute;
mod extents;
mod garbage;
mod grids;
mod json;
mod needs;
mod pages;
mod parts;
mod places;
mod reading;
mod schema;
mod sentences;
mod sheets;
mod stories;
mod tables;
mod terminals;
mod transcripts;
mod wording;
mod writing;
mod xml;

use reference::report::{Arguments, Report};

/// As many random tables as are promised.
const TABLES: u64 = 20_000;

fn main() {
    let arguments = Arguments::read("front");
    let mut report = Report::default();
    let seed = arguments.seed;
    let told = transcripts::run(&mut report);
    coverage::run(&mut report, &told);
    sentences::run(&mut report, &told);
    blocks::run(&mut report);
    tables::run(&mut report, seed, arguments.number.unwrap_or(TABLES));
    garbage::run(&mut report, seed);
    back::run(&mut report, seed);
    places::run(&mut report, seed);
    stories::run(&mut report, seed);
    needs::run(&mut report, seed);
    pages::run(&mut report, seed);
    parts::run(&mut report, seed);
    sheets::run(&mut report, seed);
    terminals::run(&mut report);
    report.finish();
}
