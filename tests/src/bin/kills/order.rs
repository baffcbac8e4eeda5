//! The order in which a run has its writings on the device.

use super::{prepare, Way, RENAME, STOPPED};
use reference::report::Group;
use reference::scene::{Scene, FILE, LOCK, LOG, NEW, RECORD};
use reference::traced::{traced, Then};
use std::path::Path;

/// What is written, and when it is on the device, in words.
fn events(scene: &Scene, words: &[&str]) -> Vec<String> {
    const WRITE: u64 = 1;
    const SYNC: u64 = 74;
    const UNLINK: u64 = 87;
    let name = |path: &Path| match path.strip_prefix(&scene.folder) {
        Ok(rest) if rest.as_os_str().is_empty() => "folder".to_string(),
        Ok(rest) => rest.display().to_string(),
        Err(_) => "output".to_string(),
    };
    let mut events = Vec::new();
    let ended = traced(&mut scene.run(STOPPED, words), |stop| {
        if !stop.before {
            return Then::GoOn;
        }
        let [first, second, _] = stop.arguments;
        match stop.call {
            WRITE => events.push(format!("write {}", name(&stop.opened(first)))),
            SYNC => events.push(format!("sync {}", name(&stop.opened(first)))),
            UNLINK => events.push(format!("remove {}", name(Path::new(&stop.string(first))))),
            RENAME => {
                let (from, to) = (stop.string(first), stop.string(second));
                let (from, to) = (name(Path::new(&from)), name(Path::new(&to)));
                events.push(format!("rename {from} {to}"));
            }
            _ => {}
        }
        Then::GoOn
    });
    assert!(ended.is_ok_and(|ended| ended.status == Some(0)));
    events.dedup();
    events
}

pub fn order(scene: &Scene, group: &mut Group) {
    let mut check = |words: &[&str], wanted: &[&str]| {
        prepare(scene, Way::Log);
        let found = events(scene, words);
        group.input(found == wanted, || format!("{words:?}: {found:#?}"));
    };
    let new = &format!("write {NEW}");
    let new_synced = &format!("sync {NEW}");
    let renamed = &format!("rename {NEW} {FILE}");
    let unlocked = &format!("remove {LOCK}");
    let (synced, output) = ("sync folder", "write output");
    check(&[], &[new, new_synced, renamed, synced, unlocked, output]);
    let record = &format!("write {RECORD}");
    let record_synced = &format!("sync {RECORD}");
    let record_removed = &format!("remove {RECORD}");
    check(
        &["--log", LOG],
        &[
            new,
            new_synced,
            record,
            record_synced,
            synced,
            renamed,
            synced,
            "write log",
            "sync log",
            record_removed,
            synced,
            unlocked,
            output,
        ],
    );
}
