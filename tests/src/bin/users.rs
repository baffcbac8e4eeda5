//! What of the old file its new one keeps, and what other users may do: modes,
//! attributes, owner and group; no right to write; what one user's stopped run
//! left for another. Most of it needs root, who can be any user.
//! Argument: the seed, on which nothing depends here.

use reference::report::{Arguments, Group, Report};
use reference::scene::{after, said, step, table, Said, Scene, FILE, LOG, RECORD};
use reference::traced::{may_trace, traced, Then};
use std::ffi::{c_char, c_int, c_void, CString};
use std::fs;
use std::os::unix::ffi::OsStrExt;
use std::os::unix::fs::{chown, MetadataExt};
use std::os::unix::process::CommandExt;
use std::path::Path;
use std::process::Command;

extern "C" {
    fn geteuid() -> u32;
    fn setxattr(
        path: *const c_char,
        name: *const c_char,
        value: *const c_void,
        size: usize,
        flags: c_int,
    ) -> c_int;
    fn getxattr(path: *const c_char, name: *const c_char, value: *mut c_void, size: usize)
        -> isize;
    fn removexattr(path: *const c_char, name: *const c_char) -> c_int;
}

/// Modes stay as they are, whatever the mask; the log gets the file's.
fn modes(scene: &Scene, group: &mut Group) {
    for mode in [
        0o600, 0o640, 0o644, 0o660, 0o666, 0o606, 0o755, 0o700, 0o620,
    ] {
        for mask in ["0", "022", "077"] {
            scene.reset(&table());
            scene.set_mode(FILE, mode);
            let line = format!("umask {mask}; exec \"$0\" run {FILE} 0 0 0 --log {LOG}");
            let mut command = Command::new("bash");
            command.args(["-c", &line]).arg(&scene.program);
            let answer = said(command.current_dir(&scene.folder));
            let found = (scene.mode(FILE), scene.mode(LOG));
            group.demand(found == (mode, mode), || {
                format!("{mode:o}, {mask}: {found:?}")
            });
            scene.stands(group, &after(&table(), 0), &step(0), "a mode", &answer);
        }
    }
}

/// A file that nobody may write is not replaced, by root neither, and neither by `make`.
fn unwritable(scene: &Scene, group: &mut Group) {
    for mode in [0o444, 0o400, 0o555] {
        scene.reset(&table());
        scene.write("words", b"table 1\nrights own\n");
        scene.set_mode(FILE, mode);
        let answers = [
            said(&mut scene.run(0, &[])),
            scene.call(&["make", "words", "-o", FILE, "--force"]),
        ];
        for answer in answers {
            let good = answer.stopped("write this file") && scene.mode(FILE) == mode;
            group.demand(good, || format!("{mode:o}: {answer:?}"));
            scene.stands(
                group,
                &table(),
                b"",
                "a file that nobody may write",
                &answer,
            );
        }
    }
    scene.reset(&table());
    scene.write(LOG, b"");
    scene.set_mode(LOG, 0o444);
    let answer = said(&mut scene.run(0, &["--log", LOG]));
    let good = answer.stopped("the log cannot be written") && scene.mode(LOG) == 0o444;
    group.demand(good, || format!("a log: {answer:?}"));
    scene.stands(group, &table(), b"", "its log", &answer);
}

/// An access control list: version 2, then (kind, permissions, who).
fn access_list(entries: &[(u16, u16, u32)]) -> Vec<u8> {
    let mut list = 2u32.to_le_bytes().to_vec();
    for (kind, permissions, who) in entries {
        list.extend(kind.to_le_bytes());
        list.extend(permissions.to_le_bytes());
        list.extend(who.to_le_bytes());
    }
    list
}

fn c_path(path: &Path) -> CString {
    CString::new(path.as_os_str().as_bytes()).expect("a path")
}

fn attribute(path: &Path, name: &str) -> Option<Vec<u8>> {
    let (path, name) = (c_path(path), CString::new(name).expect("a name"));
    let mut value = vec![0u8; 4096];
    // SAFETY: strings that end in a zero, and a buffer with its length.
    let length = unsafe {
        let room = value.as_mut_ptr().cast();
        getxattr(path.as_ptr(), name.as_ptr(), room, value.len())
    };
    value.truncate(usize::try_from(length).ok()?);
    Some(value)
}

fn set_attribute(path: &Path, name: &str, value: &[u8]) -> bool {
    let (path, name) = (c_path(path), CString::new(name).expect("a name"));
    // SAFETY: strings that end in a zero, and bytes with their length.
    unsafe {
        let bytes = value.as_ptr().cast();
        setxattr(path.as_ptr(), name.as_ptr(), bytes, value.len(), 0) == 0
    }
}

const ACCESS: &str = "system.posix_acl_access";
const DEFAULT: &str = "system.posix_acl_default";
const EVERYBODY: u32 = u32::MAX;

/// The list and other attributes are kept, and a folder's list for its new
/// files gives nobody a right to the file that had none.
fn attributes(scene: &Scene, group: &mut Group) -> bool {
    let entries = [
        (1, 6, EVERYBODY),
        (2, 6, 1234),
        (4, 0, EVERYBODY),
        (16, 6, EVERYBODY),
        (32, 0, EVERYBODY),
    ];
    let list = access_list(&entries);
    scene.reset(&table());
    let file = &scene.path(FILE);
    if !set_attribute(file, ACCESS, &list) {
        return false;
    }
    let tagged = set_attribute(file, "user.shelf", b"three");
    let mode = scene.mode(FILE);
    let answer = said(&mut scene.run(0, &[]));
    let kept = attribute(file, ACCESS) == Some(list) && scene.mode(FILE) == mode;
    group.input(answer.done() && kept, || format!("the list: {answer:?}"));
    if tagged {
        let kept = attribute(file, "user.shelf") == Some(b"three".to_vec());
        group.input(kept, || format!("an attribute: {answer:?}"));
    }
    scene.reset(&table());
    let given = set_attribute(&scene.folder, DEFAULT, &access_list(&entries));
    let answer = said(&mut scene.run(0, &[]));
    let none = attribute(file, ACCESS).is_none() && scene.mode(FILE) == 0o600;
    group.input(given && answer.done() && none, || {
        format!("a folder's list: {answer:?}")
    });
    let (folder, name) = (
        c_path(&scene.folder),
        CString::new(DEFAULT).expect("a name"),
    );
    // SAFETY: strings that end in a zero.
    unsafe { removexattr(folder.as_ptr(), name.as_ptr()) };
    true
}

/// Users that are nobody's on this machine, and a group.
const OWNER: u32 = 61_001;
const OTHER: u32 = 61_002;
const GROUP: u32 = 61_010;

fn give(scene: &Scene, name: &str, owner: u32, group: u32, mode: u32) {
    chown(scene.path(name), Some(owner), Some(group)).expect("root may");
    scene.set_mode(name, mode);
}

fn owned(scene: &Scene, name: &str) -> (u32, u32, u32) {
    let there = fs::symlink_metadata(scene.path(name)).expect("it is there");
    (there.uid(), there.gid(), there.mode() & 0o7777)
}

/// A run by this user, in this group.
fn run_as(scene: &Scene, user: u32, group: u32, words: &[&str]) -> Said {
    said(scene.run(0, words).uid(user).gid(group))
}

/// As root only: what other users may do, and whose the file is afterwards.
fn other_users(scene: &Scene, group: &mut Group) {
    let set = |folder: u32, mode: u32| {
        scene.reset(&table());
        scene.set_mode("", folder);
        give(scene, FILE, OWNER, GROUP, mode);
    };
    let done = after(&table(), 0);
    // Root, and the owner: all is kept.
    set(0o777, 0o600);
    let answer = said(&mut scene.run(0, &[]));
    scene.stands(group, &done, b"", "root", &answer);
    group.demand(owned(scene, FILE) == (OWNER, GROUP, 0o600), || {
        "root: not kept".into()
    });
    set(0o777, 0o640);
    let answer = run_as(scene, OWNER, OWNER, &[]);
    group.demand(answer.stopped("group"), || {
        format!("owner outside the group: {answer:?}")
    });
    scene.stands(group, &table(), b"", "owner outside the group", &answer);
    set(0o777, 0o640);
    let answer = run_as(scene, OWNER, GROUP, &[]);
    scene.stands(group, &done, b"", "owner", &answer);
    group.demand(owned(scene, FILE) == (OWNER, GROUP, 0o640), || {
        "owner: not kept".into()
    });
    // One of the group: the owner changes, and it is said.
    set(0o777, 0o660);
    let answer = run_as(scene, OTHER, GROUP, &["--log", LOG]);
    scene.stands(group, &done, &step(0), "one of the group", &answer);
    let kept = owned(scene, FILE) == (OTHER, GROUP, 0o660);
    group.demand(kept && answer.done(), || {
        format!("one of the group: {answer:?}")
    });
    group.demand(answer.err.contains("its owner could not be kept"), || {
        answer.err.clone()
    });
    // Who may not write the file, or outside its group: nothing changes.
    for (mode, user, of, because) in [
        (0o600, OTHER, GROUP, "you may not read and write this file"),
        (0o640, OTHER, GROUP, "you may not read and write this file"),
        (0o664, OTHER, OTHER, "you may not read and write this file"),
        (0o666, OTHER, OTHER, "its group cannot be kept"),
        (0o400, OWNER, GROUP, "you may not read and write this file"),
    ] {
        set(0o777, mode);
        let answer = run_as(scene, user, of, &[]);
        group.demand(answer.stopped(because), || format!("{mode:o}: {answer:?}"));
        let kept = owned(scene, FILE) == (OWNER, GROUP, mode);
        group.demand(kept, || format!("{mode:o}: not kept"));
        scene.stands(group, &table(), b"", because, &answer);
    }
    // A folder that the owner of the file may not write.
    set(0o755, 0o600);
    let answer = run_as(scene, OWNER, GROUP, &[]);
    group.demand(
        answer.stopped("a folder in which you may make files"),
        || format!("{answer:?}"),
    );
    scene.stands(group, &table(), b"", "read-only folder", &answer);
    scene.set_mode("", 0o755);
}

/// As anybody else: a folder and a file that may not be written.
fn read_only(scene: &Scene, group: &mut Group) {
    scene.reset(&table());
    scene.set_mode("", 0o555);
    let answer = said(&mut scene.run(0, &[]));
    let good = answer.stopped("a folder in which you may make files");
    group.input(good, || format!("folder: {answer:?}"));
    scene.set_mode("", 0o755);
    scene.set_mode(FILE, 0o444);
    let answer = said(&mut scene.run(0, &[]));
    let good = answer.stopped("you may not read and write this file");
    group.input(good, || format!("file: {answer:?}"));
    group.demand(scene.mode(FILE) == 0o444, || "the mode".to_string());
    scene.stands(group, &table(), b"", "read-only", &answer);
}

/// Root's run is killed at each system call; then the file's owner, who may do
/// no more than owners may, goes on.
fn owner_after_root(scene: &Scene, group: &mut Group) {
    let mut mended = 0;
    for number in 1.. {
        scene.reset(&table());
        scene.set_mode("", 0o777);
        give(scene, FILE, OWNER, GROUP, 0o600);
        scene.write(LOG, b"");
        give(scene, LOG, OWNER, GROUP, 0o600);
        let ended = traced(&mut scene.run(7, &["--log", LOG]), |stop| {
            match stop.number == number {
                true => Then::Kill,
                false => Then::GoOn,
            }
        });
        if !ended.expect("the program can be traced").killed {
            break;
        }
        let happened = scene.read(FILE) != table();
        let answer = run_as(scene, OWNER, GROUP, &["--log", LOG]);
        let (mut file, mut log) = (table(), Vec::new());
        if happened {
            file = after(&file, 7);
            log.extend(step(7));
        }
        log.extend(step(0));
        scene.stands(
            group,
            &after(&file, 0),
            &log,
            &format!("stop {number}"),
            &answer,
        );
        let kept = owned(scene, FILE) == (OWNER, GROUP, 0o600);
        group.demand(kept && answer.done(), || {
            format!("stop {number}: {answer:?}")
        });
        mended += usize::from(answer.err.contains("is there now"));
    }
    println!("  {mended} logs mended by the owner");
    group.demand(mended > 0, || "no log was mended".to_string());
}

/// A record that another user has put there does not make root write where
/// that user wants.
fn planted(scene: &Scene, group: &mut Group) {
    scene.reset(&table());
    scene.set_mode("", 0o777);
    give(scene, FILE, OWNER, GROUP, 0o600);
    scene.write("precious", b"12345");
    let mut record = b"tugcaphi step 1\n".to_vec();
    record.extend(*b"67890");
    let path = scene.path("precious");
    let path = path.as_os_str().as_bytes();
    for number in [5, path.len() as u64, table().len() as u64] {
        record.extend(number.to_le_bytes());
    }
    record.extend(path);
    record.extend(table());
    record.extend(b"end\n");
    scene.write(RECORD, &record);
    let write = |group: &mut Group, owner: u32, wanted: &[u8], because: &str| {
        scene.write(RECORD, &record);
        give(scene, RECORD, owner, GROUP, 0o600);
        let answer = scene.call(&["run", FILE, "40", "0"]);
        let good = answer.refused(11)
            && scene.read("precious") == wanted
            && !scene.path(RECORD).exists()
            && answer.err.contains(because);
        group.input(good, || format!("{owner}: {answer:?}"));
    };
    write(group, OTHER, b"12345", "another user's");
    write(group, OWNER, b"12345", "another user's");
    // Of one's own it is taken: the test would see a record that nobody reads.
    write(group, 0, b"1234567890", "is there now");
    scene.set_mode("", 0o755);
}

fn main() {
    let _ = Arguments::read("users");
    let mut report = Report::default();
    let scene = Scene::new("users");
    if scene.ready(&mut report) {
        groups(&scene, &mut report);
    }
    drop(scene);
    report.finish();
}

fn groups(scene: &Scene, report: &mut Report) {
    report.group("modes are kept", 27, |group| modes(scene, group));
    report.group("a file that nobody may write", 7, |group| {
        unwritable(scene, group)
    });
    let mut listed = true;
    report.group("attributes are kept", 1, |group| {
        listed = attributes(scene, group);
        if !listed {
            println!("  the file system has no access control lists, left out");
            group.inputs += 1;
        }
    });
    // SAFETY: it has no arguments and cannot fail.
    if unsafe { geteuid() } != 0 {
        report.group("read-only folder and file", 2, |group| {
            read_only(scene, group)
        });
        println!("other users: only root can be another user, left out");
        return;
    }
    let scene = &Scene::quick("others");
    report.group("other users", 10, |group| other_users(scene, group));
    report.group("a record of another user's", 3, |group| {
        planted(scene, group)
    });
    if may_trace() {
        report.group("the owner goes on where root was killed", 100, |group| {
            owner_after_root(scene, group)
        });
    } else {
        println!("the owner after root: no program may be traced here, left out");
    }
}
