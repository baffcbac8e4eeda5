//! No room: a limit on the size of files, and a full device.

use reference::report::Group;
use reference::scene::{after, said, step, table, Scene, FILE, LOG};
use std::path::Path;
use std::process::Command;

/// A limit on the size of files: too little for the file, for the log.
pub fn size_limit(scene: &Scene, group: &mut Group) {
    let limited = |blocks: &str, words: &str| {
        let line = format!("ulimit -c 0 -f {blocks}; exec \"$0\" run {FILE} 0 0 0 {words}");
        let mut command = Command::new("bash");
        command.args(["-c", &line]).arg(&scene.program);
        said(command.current_dir(&scene.folder))
    };
    scene.reset(&table());
    let answer = limited("1", "");
    group.demand(answer.stopped("File too large"), || format!("{answer:?}"));
    scene.stands(group, &table(), b"", "limit for the file", &answer);
    // A block has 1,024 bytes; one byte of the step has room.
    let mut log = step(9).repeat(819);
    scene.write(LOG, &log);
    let answer = limited("4", &format!("--log {LOG}"));
    let told = answer.stopped("the next run on this file sees to the step");
    let changed = scene.read(FILE) == after(&table(), 0) && scene.read(LOG) == log;
    group.input(told && changed, || format!("limit for the log: {answer:?}"));
    let answer = said(&mut scene.run(1, &[]));
    log.extend(step(0));
    let file = after(&after(&table(), 0), 1);
    group.demand(answer.err.contains("is there now"), || {
        format!("{answer:?}")
    });
    scene.stands(group, &file, &log, "behind the limit", &answer);
}

/// A file system of few pages in a name space of its own, all of them taken:
/// with the file there, and with the log there and the file with room.
const FULL: &str = r#"
set -e
mount -t tmpfs -o size=12k none "$2"
cp library "$2/library"
cat /dev/zero > "$2/filler" 2> /dev/null || true
status=0
(cd "$2" && "$1" run library 0 0 0) || status=$?
test $status = 3
cmp library "$2/library"
test "$(ls -A "$2")" = "filler
library"
: > "$2/log"
status=0
"$1" run library 0 0 0 --log "$2/log" || status=$?
test $status = 3
cmp library "$2/library"
test "$(ls -A "$2")" = "filler
library
log"
test ! -s "$2/log"
rm "$2/filler"
"$1" run library 0 0 0 --log "$2/log"
(cd "$2" && "$1" run library 0 0 0)
cmp library "$2/library"
test "$(wc -c < "$2/log")" = 5
test "$(ls -A "$2")" = "library
log"
"#;

fn in_own_space(script: &str, scene: &Scene, mount: &Path) -> Command {
    let mut command = Command::new("unshare");
    command
        .args(["-rm", "bash", "-c", script, "bash"])
        .arg(&scene.program)
        .arg(mount)
        .current_dir(&scene.folder);
    command
}

pub fn full_disk(scene: &Scene, group: &mut Group) {
    scene.reset(&table());
    let mount = Scene::new("disk");
    let answer = said(&mut in_own_space(FULL, scene, &mount.folder));
    let told = answer.err.matches("No space left on device").count();
    group.input(answer.status == Some(0) && told == 2, || {
        format!("{answer:?}")
    });
    scene.stands(group, &after(&table(), 0), b"", "full disk", &answer);
}

pub fn can_mount(scene: &Scene) -> bool {
    let script = "mount -t tmpfs -o size=12k none \"$2\"";
    let output = in_own_space(script, scene, &scene.folder).output();
    output.is_ok_and(|output| output.status.success())
}
