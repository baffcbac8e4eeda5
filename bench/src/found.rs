//! The slowest files that the search for slow ones (`bench/bad`) found, as it wrote them.

use crate::families::Sample;
use crate::notation;

const TEXTS: [&str; 10] = [
    include_str!("../found/01.txt"),
    include_str!("../found/02.txt"),
    include_str!("../found/03.txt"),
    include_str!("../found/04.txt"),
    include_str!("../found/05.txt"),
    include_str!("../found/06.txt"),
    include_str!("../found/07.txt"),
    include_str!("../found/08.txt"),
    include_str!("../found/09.txt"),
    include_str!("../found/10.txt"),
];

pub fn family() -> Vec<Sample> {
    let numbered = TEXTS.iter().zip(1..);
    let sample = |(text, number): (&&str, u8)| {
        Sample::new("found", &format!("{number:02}"), notation::read(text))
    };
    numbered.map(sample).collect()
}
