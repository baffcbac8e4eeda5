//! Compares the verified library's answers to what a press needs (request C-14)
//! with cases by hand, with a brute search on tiny tables, with the reference,
//! and with the fronts of all its rounds on larger ones.

#[path = "../../boundary/judge.rs"]
mod boundary_judge;
#[path = "../../boundary/need.rs"]
mod boundary_need;
#[path = "../../boundary/run.rs"]
mod boundary_run;
mod cases;
mod refusals;

use reference::brute::{Reached, Runs};
use reference::file::{self, Contents};
use reference::filled::{call, compare, Course, Library, Question};
use reference::generate::*;
use reference::judge::{judge, UNSAFE};
use reference::lists::{all_cells, any_cells, bytes};
use reference::need::{Account, Cell, HELD, NEVER};
use reference::random::Random;
use reference::report::{hex, Arguments, Counts, Group, Report};
use reference::second;
use reference::verdict::needed;

/// More states than this are given up; nothing is known of such a table.
const LIMIT: usize = 3_000;

/// File, right and buffer to the judge's answer and the number of its steps.
type Judge = fn(&[u8], u8, &mut [u8]) -> (u8, u64);

fn main() {
    let arguments = Arguments::read("need");
    let (library, judge): (Library, Judge) = if arguments.own {
        let library = Library {
            need: second::need,
            run: second::run,
        };
        (library, second::judge)
    } else {
        let library = Library {
            need: boundary_need::need,
            run: boundary_run::run,
        };
        (library, boundary_judge::judge)
    };
    let mut random = Random::new(arguments.seed);
    let random = &mut random;
    let mut report = Report::default();
    let mut counts = Counts::default();

    cases::run(&mut report, library, random);
    refusals::run(&mut report, library, random, &mut counts);
    report.group("brute search on tiny tables", 12_000, |group| {
        brute(group, library, random, &mut counts)
    });
    report.group("fronts of the rounds of larger tables", 6_000, |group| {
        fronts(group, library, random, &mut counts)
    });
    report.group("the judge's steps", 1_500, |group| {
        judges_steps(group, library, judge, random)
    });
    report.group("buffer lengths", 4_000, |group| {
        lengths(group, library, random, &mut counts)
    });
    report.group("each answer was seen", 16, |group| {
        let answers = [NEVER, 1, 2, 3, 4, 5, 6, 7, 8, 9, 22, 23, 24, 41, 44, HELD];
        counts.demand(group, &answers, 100);
    });
    counts.print("answers (0 is never, 255 is held)");
    report.finish();
}

/// How the answers came about.
#[derive(Default)]
struct Mix {
    at_start: u64,
    after_steps: u64,
    never: u64,
    never_with_steps: u64,
    spare: u64,
}

impl Mix {
    fn add(&mut self, account: &Account) {
        match (account.code, account.steps) {
            (HELD, 0) => self.at_start += 1,
            (HELD, _) => self.after_steps += 1,
            _ => self.never += 1,
        }
        self.never_with_steps += u64::from(account.code == NEVER && account.steps > 0);
        self.spare += u64::from(account.spare > 0);
    }

    fn demand(&self, group: &mut Group, fewest: [u64; 5]) {
        let counts = [
            (self.at_start, "held at the start"),
            (self.after_steps, "held after steps"),
            (self.never, "never"),
            (self.never_with_steps, "never after steps"),
            (self.spare, "with spare blanks in their steps"),
        ];
        let told = counts.map(|(count, what)| format!("{count} {what}"));
        println!("  {}", told.join(", "));
        for ((count, what), fewest) in counts.into_iter().zip(fewest) {
            group.demand(count >= fewest, || format!("only {count} {what}"));
        }
    }
}

/// Never: no state that a run reaches without destroying a name of the start
/// holds all cells. Held: one does.
fn brute(group: &mut Group, library: Library, random: &mut Random, counts: &mut Counts) {
    let (mut mix, mut unknown) = (Mix::default(), 0);
    let (mut by_destroying, mut pools, mut high) = (0, [0; 4], 0);
    while group.inputs < 12_000 {
        let draft = match random.percent(15) {
            true => remaking(random),
            false => small(random),
        };
        let contents = file::read(&draft.file()).unwrap();
        let Some((further, reached)) = exhausted(&contents) else {
            unknown += 1;
            continue;
        };
        pools[further] += 1;
        // A name that is made anew needs no further one.
        let freely = Reached::from(&contents, Runs::All, 0, LIMIT);
        // The rights' numbers change nothing.
        let (asked, numbers) = match random.percent(50) {
            true => renumbered(random, &draft),
            false => (draft.clone(), (0..draft.rights).collect()),
        };
        let file = asked.file();
        for cells in tiny_lists(random, &contents) {
            let other = |cell: &Cell| Cell {
                right: numbers[usize::from(cell.right)],
                ..*cell
            };
            let list = bytes(&cells.iter().map(other).collect::<Vec<_>>());
            high += u64::from(list.iter().step_by(3).any(|&right| right >= 8));
            let length = needed(&file) + random.below(7);
            let question = Question::new(&file, &list);
            let account = compare(group, library, random, question, length);
            let holds = |reached: &Reached| reached.some_holds(&cells);
            let wanted = if holds(&reached) { HELD } else { NEVER };
            group.demand(account.code == wanted, || {
                format!(
                    "{account:?}, brute search {wanted}: {cells:?}, {}",
                    hex(&file)
                )
            });
            by_destroying += u64::from(wanted == NEVER && freely.as_ref().is_some_and(holds));
            mix.add(&account);
            counts.add(account.code);
        }
    }
    mix.demand(group, [2_000, 1_500, 4_000, 2_000, 1_000]);
    println!(
        "  tables with 1, 2, 3 further names {:?}, not exhausted {unknown}; lists held by destroying a name of the start alone {by_destroying}",
        &pools[1..]
    );
    group.demand(high >= 1_500, || {
        format!("only {high} with a right from 8 on")
    });
    group.demand(pools[3] >= 2_000, || {
        format!("only {pools:?} with three names")
    });
    group.demand(by_destroying >= 50, || {
        format!("only {by_destroying} where a destroy would help")
    });
}

/// All that runs reach that destroy no name of the start, with as many further
/// names as can be exhausted, at most three.
fn exhausted(contents: &Contents) -> Option<(usize, Reached)> {
    let reach = |further| {
        let reached = Reached::from(contents, Runs::Keeping, further, LIMIT)?;
        Some((further, reached))
    };
    (1..=3).rev().find_map(reach)
}

/// Lists by what the rounds come to, and by chance; none without a subject.
fn tiny_lists(random: &mut Random, contents: &Contents) -> Vec<Vec<Cell>> {
    let all = all_cells(contents);
    if all.is_empty() {
        return Vec::new();
    }
    let course = Course::of(contents);
    let mut lists = Vec::new();
    for count in [1, 3] {
        lists.push(any_cells(random, contents, course.last()));
        lists.push((0..count).map(|_| random.pick(&all)).collect());
    }
    lists
}

/// A table in which a name of the start may be destroyed and created as a
/// subject, and then let a right in that it did not before.
fn remaking(random: &mut Random) -> Draft {
    let mut draft = Draft::empty(2);
    let count = random.pick(&[2, 2, 3]);
    let names = some_names(random, count);
    for (place, &name) in names.iter().enumerate() {
        draft.kinds[name] = if place == 0 { 2 } else { 1 };
    }
    let (a, b) = random.pick(&[(0, 1), (1, 0)]);
    let guard = random.pick(&[[0, b, b], [0, b, a]]);
    draft.rules = vec![
        rule(1, &[], &[[DESTROY_OBJECT, 0, 0, 0]]),
        rule(1, &[], &[[CREATE_SUBJECT, 0, 0, 0]]),
        rule(2, &[guard], &[[ENTER, 1, a, b]]),
    ];
    draft.rules.push(match random.below(3) {
        0 => rule(2, &[], &[[ENTER, 0, 0, 1]]),
        _ => rule(1, &[], &[[ENTER, 0, 0, 0]]),
    });
    random.shuffle(&mut draft.rules);
    draft
}

/// The answer is the shortest front of the rounds' steps that holds all cells,
/// or never with all of them; of many lists on each table.
fn fronts(group: &mut Group, library: Library, random: &mut Random, counts: &mut Counts) {
    let (mut mix, mut most) = (Mix::default(), 0);
    let mut table = 0;
    while group.inputs < 6_000 {
        table += 1;
        let draft = match table % 4 {
            0 => large(random).0,
            1 => chain(random).0,
            2 => busy_chain(random).0,
            _ => small(random),
        };
        let file = draft.file();
        let contents = file::read(&file).unwrap();
        let course = Course::of(&contents);
        for _ in 0..10 {
            let cells = any_cells(random, &contents, course.last());
            let account = front(group, library, random, &file, &course, &cells);
            mix.add(&account);
            counts.add(account.code);
            most = most.max(account.steps);
        }
    }
    println!("  {table} tables, at most {most} steps");
    mix.demand(group, [300, 2_000, 1_000, 800, 1_500]);
    group.demand(most >= 400, || format!("at most {most} steps"));
}

/// One input of these: what the course says is answered, and every byte.
fn front(
    group: &mut Group,
    library: Library,
    random: &mut Random,
    file: &[u8],
    course: &Course,
    cells: &[Cell],
) -> Account {
    let account = course.answer(cells);
    let length = needed(file) + random.pick(&[0, 0, 1, 5, 1000]);
    let mut given = random.bytes(length);
    let mut wanted = given.clone();
    let end = 5 * account.steps as usize;
    wanted[..end].copy_from_slice(&course.trace[..end]);
    let list = bytes(cells);
    let answer = call(
        group,
        library,
        random,
        Question::new(file, &list),
        &mut given,
    );
    let good = answer == (account.code, account.steps) && given == wanted;
    group.input(good, || {
        format!("{answer:?}, wanted {account:?}: {cells:?}, {}", hex(file))
    });
    account
}

/// As long as no enter of the judge's right ended its rounds, the judge's steps
/// are those of a press, and else their front.
fn judges_steps(group: &mut Group, library: Library, judged: Judge, random: &mut Random) {
    let mut seen = [0; 3];
    while group.inputs < 1_500 {
        let draft = match random.below(4) {
            0 => large(random).0,
            1 => chain(random).0,
            _ => small(random),
        };
        let file = draft.file();
        let contents = file::read(&file).unwrap();
        let course = Course::of(&contents);
        for right in 0..draft.rights {
            let cells = any_cells(random, &contents, course.last());
            let (good, sort) = beside(library, judged, &file, right, &cells);
            seen[sort] += 1;
            group.input(good, || {
                format!("judge of {right}, press {cells:?}, {}", hex(&file))
            });
        }
    }
    println!(
        "  the judge's rounds at their end: {} never, {} held; ended by its right: {}",
        seen[0], seen[1], seen[2]
    );
    for (sort, count) in seen.into_iter().enumerate() {
        group.demand(count >= 100, || format!("only {count} of sort {sort}"));
    }
}

/// Whether the two go together, and how they ended.
fn beside(
    library: Library,
    judged: Judge,
    file: &[u8],
    right: u8,
    cells: &[Cell],
) -> (bool, usize) {
    let mut buffer = vec![0; needed(file)];
    let account = judge(file, right, &mut buffer);
    let (_, steps) = judged(file, right, &mut buffer);
    // The closing search is no part of the rounds.
    let closing = if account.closing { 2 } else { 0 };
    let of_judge = &buffer[..5 * (steps as usize - closing)];
    let mut pressed = vec![0; buffer.len()];
    let (code, steps) = (library.need)(file, &bytes(cells), &mut pressed);
    let of_press = &pressed[..5 * steps as usize];
    let ended = account.code == UNSAFE && !account.closing;
    match (code, ended) {
        (NEVER, false) => (of_judge == of_press, 0),
        (NEVER, true) => (of_press.starts_with(of_judge), 2),
        (HELD, false) => (of_judge.starts_with(of_press), 1),
        // Whichever ended first.
        (HELD, true) => {
            let front = of_judge.starts_with(of_press) || of_press.starts_with(of_judge);
            (front, 2)
        }
        _ => (false, 0),
    }
}

/// The bound is enough, a byte less is 24, and what lies behind is nobody's.
fn lengths(group: &mut Group, library: Library, random: &mut Random, counts: &mut Counts) {
    let mut full = 0;
    for round in 0..800 {
        let draft = if round % 25 == 0 {
            chain(random).0
        } else {
            small(random)
        };
        let file = draft.file();
        let contents = file::read(&file).unwrap();
        let course = Course::of(&contents);
        let list = bytes(&any_cells(random, &contents, course.last()));
        let question = Question::new(&file, &list);
        let least = needed(&file);
        for length in [0, random.below(least), least - 1] {
            let account = compare(group, library, random, question, length);
            counts.add(account.code);
            group.demand(account.code == 24, || {
                format!("{length} bytes: {account:?}")
            });
        }
        for length in [least, least + 1, least + 5_000] {
            let account = compare(group, library, random, question, length);
            counts.add(account.code);
            let good = matches!(account.code, HELD | NEVER);
            group.demand(good, || format!("{length} bytes: {account:?}"));
            full += u64::from(account.steps > 0);
        }
    }
    group.demand(full >= 500, || format!("only {full} with steps"));
}
