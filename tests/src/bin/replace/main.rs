//! `tugcaphi run` among others: killed at random, many runs at once, the lock
//! held or removed, `make` at the same lock, no room, links and what cannot be
//! replaced. Argument: the seed.

use reference::file::{check, RIGHTS};
use reference::generate::{rule, Draft, CREATE_SUBJECT};
use reference::random::Random;
use reference::report::{Arguments, Group, Report};
use reference::scene::{after, said, says_done, step, table, Said, Scene, FILE, LOCK, LOG};
use std::fs::{self, File};
use std::io::{BufRead, BufReader};
use std::os::unix::fs::symlink;
use std::process::{Command, Stdio};
use std::sync::atomic::{AtomicBool, Ordering};
use std::thread;
use std::time::{Duration, Instant};

mod room;

fn spin(time: Duration) {
    let start = Instant::now();
    while start.elapsed() < time {
        std::hint::spin_loop();
    }
}

fn kill_after(command: &mut Command, time: Duration) -> Said {
    let mut child = command
        .stdout(Stdio::piped())
        .stderr(Stdio::piped())
        .spawn()
        .expect("the program can be started");
    spin(time);
    let _ = child.kill();
    Said::of(child.wait_with_output().expect("a child of ours"))
}

/// Kills runs after a random time, up to twice what a whole one takes. That
/// changes with what else the machine does, so the time follows what was left.
/// No next run is put between: each finds what the one before left.
fn kill_at_random(scene: &Scene, group: &mut Group, random: &mut Random) {
    let mut file = table();
    let mut steps = Vec::new();
    scene.reset(&file);
    scene.write(LOG, b"");
    let mut most = Duration::ZERO;
    for n in 0..5 {
        let start = Instant::now();
        let answer = said(&mut scene.run(n, &["--log", LOG]));
        most = most.max(start.elapsed());
        group.demand(answer.done(), || format!("a whole run: {answer:?}"));
        file = after(&file, n);
        steps.extend(step(n));
    }
    let (mut old, mut new, mut mended) = (0, 0, 0);
    for n in 5..505 {
        let time = most.mul_f64(random.below(1_000) as f64 / 500.0);
        let answer = kill_after(&mut scene.run(n, &["--log", LOG]), time);
        let there = scene.read(FILE);
        let happened = there == after(&file, n);
        let good = happened || (there == file && !says_done(&answer.out));
        group.input(good, || format!("run {n}: {answer:?}"));
        mended += usize::from(answer.err.contains("is there now"));
        if happened {
            new += 1;
            most = most.mul_f64(0.95).max(Duration::from_micros(200));
            file = there;
            steps.extend(step(n));
        } else {
            old += 1;
            most = most.mul_f64(1.05).min(Duration::from_millis(200));
        }
        // The log may lack the last step, and no other.
        let log = scene.read(LOG);
        let whole = log.len() / 5 * 5;
        let last = steps.len().saturating_sub(5);
        let good = steps.starts_with(&log[..whole]) && whole >= last;
        group.demand(good, || format!("run {n}: the log has {} bytes", log.len()));
    }
    let answer = said(&mut scene.run(600, &["--log", LOG]));
    steps.extend(step(600));
    let names = scene.names();
    let good = answer.done()
        && scene.read(FILE) == after(&file, 600)
        && scene.read(LOG) == steps
        && names == [FILE, LOG];
    group.demand(good, || format!("at the end: {answer:?}, {names:?}"));
    println!("  500 kills: {old} left the old file, {new} the new one; {mended} logs mended");
    group.demand(old >= 100 && new >= 100, || {
        format!("too few of one sort: {old}, {new}")
    });
}

/// Steps by five bytes, sorted, to compare logs whose order is open.
fn sorted(log: &[u8]) -> Vec<[u8; 5]> {
    let mut steps: Vec<[u8; 5]> = log
        .chunks(5)
        .map(|step| step.try_into().unwrap_or_default())
        .collect();
    steps.sort();
    steps
}

/// Processes at once, each with runs of effects of its own: in the end the file
/// has every effect and the log every step, once.
fn at_once(scene: &Scene, group: &mut Group, processes: usize, runs: usize, meanwhile: fn(&Scene)) {
    scene.reset(&table());
    let going = AtomicBool::new(true);
    let wrong: Vec<String> = thread::scope(|scope| {
        let other = scope.spawn(|| {
            while going.load(Ordering::Relaxed) {
                meanwhile(scene);
            }
        });
        let threads: Vec<_> = (0..processes)
            .map(|process| {
                scope.spawn(move || {
                    let calls = (0..runs).map(|run| {
                        let n = process * runs + run;
                        (n, said(&mut scene.run(n, &["--log", LOG])))
                    });
                    calls
                        .filter(|(_, answer)| !answer.done())
                        .map(|(n, answer)| format!("run {n}: {answer:?}"))
                        .collect::<Vec<_>>()
                })
            })
            .collect();
        let wrong = threads
            .into_iter()
            .flat_map(|one| one.join().expect("a thread of ours"))
            .collect();
        going.store(false, Ordering::Relaxed);
        other.join().expect("a thread of ours");
        wrong
    });
    let all = processes * runs;
    group.inputs += all as u64;
    group.demand(wrong.is_empty(), || {
        format!("{} not done: {}", wrong.len(), wrong[0])
    });
    let file = (0..all).fold(table(), |file, n| after(&file, n));
    let steps: Vec<u8> = (0..all).flat_map(step).collect();
    group.demand(scene.read(FILE) == file, || {
        "an effect is missing".to_string()
    });
    let log = scene.read(LOG);
    group.demand(sorted(&log) == sorted(&steps), || {
        format!("{} bytes in the log, {} wanted", log.len(), steps.len())
    });
    let names = scene.names();
    group.demand(names == [FILE, LOG], || format!("left: {names:?}"));
}

fn pause(_: &Scene) {
    thread::sleep(Duration::from_millis(5));
}

/// Somebody tidies up.
fn remove_lock(scene: &Scene) {
    let _ = fs::remove_file(scene.path(LOCK));
    thread::sleep(Duration::from_micros(300));
}

/// A command waits until the lock is released, and says so before.
fn waits(group: &mut Group, mut command: Command, release: &dyn Fn()) -> Said {
    let mut child = command
        .stdout(Stdio::piped())
        .stderr(Stdio::piped())
        .spawn()
        .expect("the program can be started");
    let mut note = String::new();
    let mut err = BufReader::new(child.stderr.take().expect("a pipe"));
    let read = err.read_line(&mut note);
    let said = read.is_ok() && note.contains("this one waits for its end");
    group.demand(said, || format!("it said: {note:?}"));
    let waiting = child.try_wait().is_ok_and(|ended| ended.is_none());
    group.demand(waiting, || "it did not wait".to_string());
    release();
    Said::of(child.wait_with_output().expect("a child of ours"))
}

fn run_waits(scene: &Scene, group: &mut Group, release: &dyn Fn()) {
    let answer = waits(group, scene.run(0, &[]), release);
    let wanted = after(&table(), 0);
    scene.stands(group, &wanted, b"", "after waiting", &answer);
    group.demand(answer.done(), || format!("after waiting: {answer:?}"));
}

/// `make` over the file waits for the same lock.
fn make_waits(scene: &Scene, group: &mut Group) {
    scene.reset(&table());
    scene.write("words", b"table 1\nrights own\n");
    let words = ["make", "words", "-o", FILE, "--force"];
    let lock = File::create(scene.path(LOCK)).expect("a lock file");
    lock.lock().expect("a lock");
    let answer = scene.call(&[&words[..], &["--no-wait"]].concat());
    let good = answer.stopped("another run is at work") && scene.read(FILE) == table();
    group.input(good, || format!("make --no-wait: {answer:?}"));
    let answer = waits(group, scene.command(&words), &|| {
        lock.unlock().expect("our lock")
    });
    let made = answer.status == Some(0) && scene.read(FILE).len() == 2_096;
    let kept = scene.mode(FILE) == 0o600 && scene.names() == [FILE, "words"];
    group.input(made && kept, || format!("make, after waiting: {answer:?}"));
}

/// The lock is held by us: a run waits for it, or says that it does not.
fn held(scene: &Scene, group: &mut Group) {
    scene.reset(&table());
    let lock = File::create(scene.path(LOCK)).expect("a lock file");
    lock.lock().expect("a lock");
    let answer = said(&mut scene.run(0, &["--no-wait"]));
    let good = answer.stopped("another run is at work") && scene.read(FILE) == table();
    group.input(good, || format!("--no-wait: {answer:?}"));
    run_waits(scene, group, &|| lock.unlock().expect("our lock"));
    // The lock file of a process that was killed is held by nobody.
    scene.reset(&table());
    scene.write(LOCK, b"");
    let answer = said(&mut scene.run(0, &["--no-wait"]));
    scene.stands(group, &after(&table(), 0), b"", "a left lock", &answer);
    // The lock file is removed, and the file itself is held.
    scene.reset(&table());
    let file = File::open(scene.path(FILE)).expect("the file");
    file.lock().expect("a lock");
    let answer = said(&mut scene.run(0, &["--no-wait"]));
    let good = answer.stopped("another run is at work") && scene.read(FILE) == table();
    group.input(good, || format!("--no-wait, the file held: {answer:?}"));
    run_waits(scene, group, &|| file.unlock().expect("our lock"));
}

/// A house file whose length is a whole number of steps.
fn house_of_steps() -> Vec<u8> {
    let mut draft = Draft::empty(RIGHTS);
    while !draft.file().len().is_multiple_of(5) {
        draft.rules.push(rule(1, &[], &[[CREATE_SUBJECT, 0, 0, 0]]));
    }
    let file = draft.file();
    assert!(file.len().is_multiple_of(5) && check(&file) == 0);
    file
}

/// What cannot be replaced is refused with a sentence, and left as it is.
fn refused_sorts(scene: &Scene, group: &mut Group) {
    scene.reset(&table());
    fs::create_dir(scene.path("folder")).expect("a folder");
    fs::hard_link(scene.path(FILE), scene.path("second")).expect("a hard link");
    symlink("nowhere", scene.path("dangling")).expect("a link");
    symlink("round", scene.path("round")).expect("a link");
    let made = Command::new("mkfifo").arg(scene.path("pipe")).status();
    group.demand(made.is_ok_and(|made| made.success()), || {
        "no pipe".to_string()
    });
    let before = scene.names();
    for (name, because) in [
        ("folder", "a folder"),
        ("pipe", "a pipe"),
        ("/dev/null", "a device"),
        ("second", "2 names (hard links)"),
        (FILE, "2 names (hard links)"),
        ("dangling", "a symbolic link that leads to no file"),
        ("round", "symbolic links"),
        ("nothing", "no file of this name"),
        ("library/below", "directory"),
        ("no/folder", "its folder"),
    ] {
        let answer = scene.call(&["run", name, "0", "0", "0"]);
        let good = answer.stopped(because) && answer.err.contains(name);
        group.input(good, || format!("{name}: {answer:?}"));
    }
    fs::remove_file(scene.path("second")).expect("a link of ours");
    scene.write("torn", b"1234567");
    scene.write("words", b"table 1\nrights own\n\n");
    scene.write("other", &house_of_steps());
    for (log, because) in [
        ("folder", "a folder"),
        ("pipe", "a pipe"),
        (FILE, "another file"),
        ("torn", "7 bytes"),
        ("words", "no step"),
        ("other", "a house file"),
        ("dangling", "a symbolic link that leads to no file"),
        ("no/folder", "folder"),
    ] {
        let answer = scene.call(&["run", FILE, "0", "0", "0", "--log", log]);
        let good = answer.stopped(because) && scene.read(FILE) == table();
        group.input(good, || format!("--log {log}: {answer:?}"));
    }
    let whole = scene.read("words").len() == 20 && scene.read("other") == house_of_steps();
    group.demand(whole, || "what is no log was written".to_string());
    let mut wanted = before;
    wanted.retain(|name| name != "second");
    wanted.extend(["other", "torn", "words"].map(String::from));
    wanted.sort();
    let names = scene.names();
    group.demand(names == wanted, || format!("{names:?}"));
}

/// Links are followed: the file that they lead to is changed, and they stay.
fn followed(scene: &Scene, group: &mut Group) {
    scene.reset(&table());
    fs::create_dir(scene.path("folder")).expect("a folder");
    symlink("../library", scene.path("folder/one")).expect("a link");
    symlink("folder/one", scene.path("two")).expect("a link");
    symlink(scene.path("traces"), scene.path("folder/log")).expect("a link");
    scene.write("traces", b"");
    let words = ["run", "two", "0", "0", "0", "--log", "folder/log"];
    let answer = scene.call(&words);
    let good = answer.done()
        && scene.read(FILE) == after(&table(), 0)
        && scene.read("traces") == step(0)
        && fs::symlink_metadata(scene.path("two")).is_ok_and(|there| there.is_symlink())
        && scene.names() == ["folder", FILE, "traces", "two"]
        && fs::read_dir(scene.path("folder")).is_ok_and(|names| names.count() == 2);
    group.input(good, || format!("{answer:?}, {:?}", scene.names()));
}

/// Standard output cannot be written: the rule is run all the same.
fn no_output(scene: &Scene, group: &mut Group) {
    scene.reset(&table());
    let mut command = scene.run(0, &[]);
    command.stdout(File::create("/dev/full").expect("/dev/full"));
    let answer = said(&mut command);
    group.demand(answer.stopped("No space left on device"), || {
        format!("{answer:?}")
    });
    scene.stands(group, &after(&table(), 0), b"", "no output", &answer);
}

fn main() {
    let arguments = Arguments::read("replace");
    let mut random = Random::new(arguments.seed);
    let mut report = Report::default();
    let scene = Scene::new("replace");
    if scene.ready(&mut report) {
        groups(&scene, &mut report, &mut random);
    }
    drop(scene);
    report.finish();
}

fn groups(scene: &Scene, report: &mut Report, random: &mut Random) {
    report.group("killed at random", 500, |group| {
        kill_at_random(scene, group, random)
    });
    report.group("20 processes, 50 runs each", 1_000, |group| {
        at_once(scene, group, 20, 50, pause)
    });
    report.group("the lock file is removed all the time", 400, |group| {
        at_once(&Scene::quick("locks"), group, 20, 20, remove_lock)
    });
    report.group("the lock is held", 4, |group| held(scene, group));
    report.group("make waits for the lock of runs", 2, |group| {
        make_waits(scene, group)
    });
    report.group("no room: a limit on the size", 3, |group| {
        room::size_limit(scene, group)
    });
    if room::can_mount(scene) {
        report.group("no room: a full disk", 2, |group| {
            room::full_disk(scene, group)
        });
    } else {
        println!("no room: a full disk: no file system may be mounted here, left out");
    }
    report.group("what cannot be replaced", 18, |group| {
        refused_sorts(scene, group)
    });
    report.group("links are followed", 1, |group| followed(scene, group));
    report.group("no standard output", 1, |group| no_output(scene, group));
}
