//! A made file is compared with what its table said: whatever differs is seen.

use super::wording::Wording;
use super::writing::text;
use reference::file::RIGHTS;
use reference::generate::{any, lively, small};
use reference::random::Random;
use reference::report::{Group, Report};
use std::ffi::OsStr;
use tugcaphi::house::{Kind, Rule};
use tugcaphi::input::made;
use tugcaphi::library::check;
use tugcaphi::table::readback::differences;
use tugcaphi::table::{self, Table};

pub fn run(report: &mut Report, seed: u64) {
    let mut random = Random::new(seed ^ 0xBAC);
    let random = &mut random;
    report.group(
        "an accepted file with another byte says something else",
        20_000,
        |group| other_bytes(group, random),
    );
    report.group("a word put to another number is seen", 500, |group| {
        for _ in 0..500 {
            let (mut table, _) = a_table(random);
            let swapped = swap(random, &mut table);
            let answer = made(&table, OsStr::new("a.table"));
            let seen = !matches!(&answer, Ok((_, 0)));
            group.input(seen || !swapped, || {
                "a wrong file would have been written".into()
            });
        }
    });
    report.group("what the proved reader refuses is not made", 4, |group| {
        let mut tables = [(); 4].map(|_| a_table(random).0);
        tables[0].house.rights = usize::from(RIGHTS) + 1;
        tables[1].house.matrix.kinds = [Kind::Absent; 32];
        tables[1].house.matrix.cell_mut(0, 0).insert(0);
        tables[2].house.rules = vec![Rule {
            blanks: 5,
            conditions: Vec::new(),
            steps: Vec::new(),
        }];
        let beyond = tables[3].house.rights;
        tables[3].house.carries.said_mut(0).insert(beyond);
        for (table, wanted) in tables.iter().zip([2, 7, 8, 44]) {
            let answer = made(table, OsStr::new("a.table")).map(|(_, refusal)| refusal);
            group.input(matches!(answer, Ok(n) if n == wanted), || {
                format!("{wanted}: {answer:?}")
            });
        }
    });
}

fn other_bytes(group: &mut Group, random: &mut Random) {
    for _ in 0..30 {
        let (table, file) = a_table(random);
        group.demand(differences(&table.statements, &file).is_empty(), || {
            "a file that is the table's own is said to differ".into()
        });
        for at in 0..file.len() {
            let mut other = file.clone();
            // Small changes are accepted more often.
            other[at] = match random.percent(50) {
                true => file[at] ^ (1 << random.below(3)),
                false => file[at].wrapping_add(random.between(1, 255) as u8),
            };
            let seen = check(&other) != 0 || !differences(&table.statements, &other).is_empty();
            group.input(seen, || {
                format!("byte {at}: {} for {}", other[at], file[at])
            });
        }
    }
}

fn a_table(random: &mut Random) -> (Table, Vec<u8>) {
    let draft = match random.below(3) {
        0 => any(random),
        1 => lively(random),
        _ => small(random),
    };
    let wording = Wording::any(random, &draft);
    let text = text(random, &draft, &wording);
    let table = table::read(&text).expect("a random table is read");
    (table, draft.file())
}

/// Puts something of the table to another number; whether that makes a difference.
fn swap(random: &mut Random, table: &mut Table) -> bool {
    let before = table.house.clone();
    let house = &mut table.house;
    match random.below(5) {
        0 => {
            let (one, other) = (random.below(32), random.below(32));
            house.matrix.kinds.swap(one, other);
        }
        1 => {
            let (s, o) = (random.below(32), random.below(32));
            let right = random.below(house.rights);
            let cell = house.matrix.cell_mut(s, o);
            match cell.has(right) {
                true => cell.remove(right),
                false => cell.insert(right),
            }
        }
        2 => {
            let (right, one) = (random.below(house.rights), random.below(house.rights));
            let set = house.carries.said_mut(right);
            match set.has(one) {
                true => set.remove(one),
                false => set.insert(one),
            }
        }
        3 if house.rules.len() > 1 => {
            let last = house.rules.len() - 1;
            house.rules.swap(0, last);
        }
        _ => {
            house.rules.pop();
        }
    }
    *house != before
}
