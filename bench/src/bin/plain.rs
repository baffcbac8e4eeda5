//! The desk program with the plain loops inside. An argument limits the
//! rounds; then it may print nothing.

use bench::plain::judge;
use bench::table::{listing, Table};
use reference::file;
use std::io::{self, Read, Write};

fn main() {
    let limit = std::env::args()
        .nth(1)
        .map_or(u64::MAX, |word| word.parse().expect("a number of rounds"));
    let mut input = Vec::new();
    io::stdin().read_to_end(&mut input).expect("an input");
    let text = match input.split_first() {
        None => "REFUSED 1\n".to_string(),
        Some((&right, bytes)) => match file::read(bytes) {
            Err(refusal) => format!("REFUSED {refusal}\n"),
            Ok(contents) => {
                // The benchmark's tables are all judged: 21 to 23 are not met.
                assert!(right < contents.rights);
                let table = Table::new(&contents);
                match judge(&table, 1 << right, limit) {
                    Some(answer) => listing(&table, &answer),
                    None => String::new(),
                }
            }
        },
    };
    io::stdout().write_all(text.as_bytes()).expect("written");
}
