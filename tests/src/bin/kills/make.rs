//! `make` stopped at each system call.

use reference::report::Group;
use reference::scene::{table, Scene, FILE};
use reference::traced::{traced, Then};

/// A table in words, and the house file that `make` makes of it.
const TEXT: &str = "table 1\nrights own read\nsubjects Ada Ben\nobjects shade\n\
    cell (Ada, shade): own\nrule lend (a, b, f): if own in (a, f) enter read into (b, f)\n";

/// `make` killed at each system call: no file, or the old one, or the new one.
pub fn kill_make(scene: &Scene, group: &mut Group, over: bool) {
    let words: &[&str] = match over {
        true => &["make", "words", "-o", FILE, "--force"],
        false => &["make", "words", "-o", FILE],
    };
    let set = || {
        scene.clear();
        scene.write("words", TEXT.as_bytes());
        if over {
            scene.write(FILE, &table());
            scene.set_mode(FILE, 0o640);
        }
    };
    set();
    let answer = scene.call(words);
    let made = scene.read(FILE);
    group.input(answer.status == Some(0) && made.len() == 2_112, || {
        format!("{answer:?}")
    });
    for number in 1.. {
        set();
        let before = scene.read(FILE);
        let ended = traced(&mut scene.command(words), |stop| {
            match stop.number == number {
                true => Then::Kill,
                false => Then::GoOn,
            }
        });
        if !ended.expect("the program can be traced").killed {
            break;
        }
        let there = scene.read(FILE);
        let whole = there == made || (there == before && scene.path(FILE).exists() == over);
        group.input(whole, || format!("stop {number}: {} bytes", there.len()));
        let answer = scene.call(&["make", "words", "-o", FILE, "--force"]);
        let names = scene.names();
        let good = answer.status == Some(0)
            && scene.read(FILE) == made
            && (!over || scene.mode(FILE) == 0o640)
            && names == [FILE, "words"];
        group.demand(good, || format!("stop {number}: {names:?}, {answer:?}"));
    }
}
