//! `tugcaphi run` and `make` stopped at each system call: killed before and
//! behind it, the call failing, another program writing the file at that moment.
//! Each time the file must be the old one or the new one, and the next run must
//! leave file and log in step and nothing else. And the order in which a run has
//! its writings on the device. Argument: the seed, on which nothing depends.

use reference::report::{Arguments, Group, Report};
use reference::scene::{advises, after, said, says_done, step, table, Said, Scene, FILE, LOG};
use reference::traced::{may_trace, traced, Ended, Stop, Then};
use std::fs;

mod make;
mod order;

/// The effects of the run that is stopped, of the next one, and of others.
const STOPPED: usize = 700;
const NEXT: usize = 1_900;
const FOREIGN: usize = 3_000;
const EARLIER: [usize; 2] = [5, 4_100];

/// How the run that is stopped is called, and what it finds.
#[derive(Clone, Copy, PartialEq, Debug)]
enum Way {
    NoLog,
    Log,
    /// The log is not there yet.
    NewLog,
    /// A run before was killed as soon as the file had its new content.
    Mending,
}

const WAYS: [Way; 4] = [Way::NoLog, Way::Log, Way::NewLog, Way::Mending];

/// File and log as they must be, if the stopped run's effect is left out.
struct Books {
    file: Vec<u8>,
    log: Vec<u8>,
}

impl Books {
    fn enter(&mut self, n: usize, logged: bool) {
        self.file = after(&self.file, n);
        if logged {
            self.log.extend(step(n));
        }
    }
}

fn logged(way: Way) -> &'static [&'static str] {
    match way {
        Way::NoLog => &[],
        _ => &["--log", LOG],
    }
}

/// The rename is the moment in which the file gets its new content.
const RENAME: u64 = 82;

/// The folder as the way wants it.
fn prepare(scene: &Scene, way: Way) -> Books {
    let mut books = Books {
        file: table(),
        log: Vec::new(),
    };
    if way == Way::Log || way == Way::Mending {
        for n in EARLIER {
            books.enter(n, true);
        }
    }
    scene.reset(&books.file);
    if way == Way::Log || way == Way::Mending {
        scene.write(LOG, &books.log);
        scene.set_mode(LOG, 0o640);
    }
    if way == Way::Mending {
        let ended = traced(&mut scene.run(FOREIGN, &["--log", LOG]), |stop| {
            if stop.call == RENAME && !stop.before {
                Then::Kill
            } else {
                Then::GoOn
            }
        });
        assert!(
            ended.is_ok_and(|ended| ended.killed),
            "no rename to kill at"
        );
        assert_eq!(scene.read(LOG), books.log);
        books.enter(FOREIGN, true);
        assert_eq!(scene.read(FILE), books.file);
    }
    books
}

/// What a stopped run left, seen before and after the next run.
fn settle(scene: &Scene, group: &mut Group, way: Way, mut books: Books, out: &str, turn: usize) {
    let about = |what: &str| format!("{way:?}, {turn}: {what}");
    let there = scene.read(FILE);
    let new = after(&books.file, STOPPED);
    let happened = there == new;
    group.input(happened || there == books.file, || {
        about("neither old nor new")
    });
    group.demand(scene.mode(FILE) == 0o600, || about("another mode"));
    if happened {
        books.enter(STOPPED, way != Way::NoLog);
    }
    if says_done(out) {
        group.demand(happened, || about("DONE, and the file is the old one"));
        group.demand(scene.read(LOG) == books.log, || {
            about("DONE, and no step in the log")
        });
    }
    let answer = next(scene, &mut books, turn);
    let good = match turn % 3 {
        2 => answer.refused(11),
        _ => answer.done(),
    };
    group.demand(good, || about(&format!("the next run: {answer:?}")));
    group.demand(scene.read(FILE) == books.file, || {
        about("the next run's file")
    });
    let log = scene.read(LOG);
    group.demand(log == books.log, || {
        about(&format!(
            "the log: {log:?}, wanted {:?}; {answer:?}",
            books.log
        ))
    });
    let names = scene.names();
    let beside = names.iter().all(|name| name == FILE || name == LOG);
    group.demand(beside, || about(&format!("left: {names:?}")));
    let mode = match way {
        Way::Log | Way::Mending => 0o640,
        _ => 0o600,
    };
    let kept = !names.contains(&LOG.to_string()) || scene.mode(LOG) == mode;
    group.demand(kept, || {
        about(&format!("the log's mode {:o}", scene.mode(LOG)))
    });
}

/// With a log, without one, and refused.
fn next(scene: &Scene, books: &mut Books, turn: usize) -> Said {
    match turn % 3 {
        0 => {
            books.enter(NEXT, true);
            said(&mut scene.run(NEXT, &["--log", LOG]))
        }
        1 => {
            books.enter(NEXT, false);
            said(&mut scene.run(NEXT, &[]))
        }
        _ => scene.call(&["run", FILE, "40", "0"]),
    }
}

fn stopped_at(scene: &Scene, way: Way, mut at: impl FnMut(&Stop) -> Then) -> Ended {
    traced(&mut scene.run(STOPPED, logged(way)), &mut at).expect("the program can be traced")
}

/// Killed before and behind each system call.
fn kill_at_each(scene: &Scene, group: &mut Group, way: Way) {
    let (mut old, mut new) = (0, 0);
    for number in 1.. {
        let books = prepare(scene, way);
        let ended = stopped_at(scene, way, |stop| match stop.number == number {
            true => Then::Kill,
            false => Then::GoOn,
        });
        if !ended.killed {
            group.demand(says_done(&ended.out), || {
                format!("not killed: {}", ended.err)
            });
            break;
        }
        if scene.read(FILE) == books.file {
            old += 1;
        } else {
            new += 1;
        }
        settle(scene, group, way, books, &ended.out, number);
    }
    println!("  {way:?}: {old} kills left the old file, {new} the new one");
    group.demand(old > 20 && new > 5, || {
        format!("too few of one sort: {old}, {new}")
    });
}

const IO_ERROR: i32 = 5;
const NO_SPACE: i32 = 28;

/// Each call fails, and the program goes on as it sees fit.
fn fail_each(scene: &Scene, group: &mut Group, way: Way, error: i32) {
    let (mut done, mut told) = (0, 0);
    for number in 1.. {
        let books = prepare(scene, way);
        let mut calls = 0;
        let mut failed = false;
        let ended = stopped_at(scene, way, |stop| {
            calls += usize::from(stop.before);
            if calls == number && stop.before {
                failed = true;
                return Then::Fail(error);
            }
            Then::GoOn
        });
        if !failed {
            break;
        }
        let happened = scene.read(FILE) != books.file;
        let about = || {
            format!(
                "{way:?}, call {number}: {:?} {}{}",
                ended.status, ended.out, ended.err
            )
        };
        // Before it comes to the file, it may end as the system lets it.
        let sentence = ended.status == Some(3) && advises(&ended.err);
        match ended.status {
            Some(0) => group.demand(happened && says_done(&ended.out), about),
            _ => group.demand(sentence || !happened, about),
        }
        // Where the file was changed and something failed behind this, it says so.
        if sentence && happened {
            let said = ended.err.contains("the file was changed") || says_done(&ended.out);
            group.demand(said || ended.err.contains("output"), about);
        }
        done += usize::from(ended.status == Some(0));
        told += usize::from(sentence);
        settle(scene, group, way, books, &ended.out, number);
    }
    println!("  {way:?}, error {error}: {done} times done all the same, {told} times told");
    group.demand(told > 15, || format!("only {told} failures were told"));
}

/// Another program, which knows of no lock, puts a file in the place of this
/// one at each stop. It is read, or it is found out, or it comes last; what can
/// be lost is what comes between the last look and the rename.
fn foreign_at_each(scene: &Scene, group: &mut Group) {
    let (mut seen, mut found_out, mut last, mut lost) = (0, 0, 0, 0);
    let foreign = after(&table(), FOREIGN);
    for number in 1.. {
        let books = prepare(scene, Way::Log);
        let mut done = false;
        let ended = stopped_at(scene, Way::Log, |stop| {
            if stop.number == number {
                done = true;
                scene.write("foreign", &foreign);
                fs::rename(scene.path("foreign"), scene.path(FILE)).expect("a rename");
            }
            Then::GoOn
        });
        if !done {
            break;
        }
        let there = scene.read(FILE);
        let complete = ended.status == Some(0) && says_done(&ended.out);
        let complained = ended.status == Some(3) && ended.err.contains("another program");
        if complete && there == after(&foreign, STOPPED) {
            seen += 1;
        } else if complained && there == foreign && scene.read(LOG) == books.log {
            found_out += 1;
        } else if complete && there == foreign {
            last += 1;
        } else if complete && there == after(&books.file, STOPPED) {
            lost += 1;
        } else {
            group.demand(false, || {
                format!("stop {number}: {:?} {}", ended.status, ended.err)
            });
        }
        group.inputs += 1;
    }
    println!("  {seen} times read, {found_out} found out, {last} last, {lost} lost");
    group.demand(seen > 5 && found_out > 5 && last > 5 && lost <= 3, || {
        "too few of one sort, or too many lost".to_string()
    });
}

fn main() {
    let _ = Arguments::read("kills");
    let mut report = Report::default();
    let scene = Scene::quick("kills");
    if !may_trace() {
        println!("each system call: no program may be traced here, left out");
    } else if scene.ready(&mut report) {
        groups(&scene, &mut report);
    }
    drop(scene);
    report.finish();
}

fn groups(scene: &Scene, report: &mut Report) {
    for way in WAYS {
        let name = format!("killed at each system call: {way:?}");
        report.group(&name, 100, |group| kill_at_each(scene, group, way));
    }
    for (way, error) in [
        (Way::Log, IO_ERROR),
        (Way::NewLog, NO_SPACE),
        (Way::Mending, NO_SPACE),
    ] {
        let name = format!("each system call fails: {way:?}, error {error}");
        report.group(&name, 50, |group| fail_each(scene, group, way, error));
    }
    report.group("another program writes at each system call", 100, |group| {
        foreign_at_each(scene, group)
    });
    report.group("the order of writings", 2, |group| {
        order::order(scene, group)
    });
    for (name, over) in [("make killed", false), ("make --force killed", true)] {
        report.group(name, 50, |group| make::kill_make(scene, group, over));
    }
}
