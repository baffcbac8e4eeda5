//! A folder of its own with a house file and its log, on which the program
//! `tugcaphi` runs rules, each with an effect that no other run has.

use crate::file::RIGHTS;
use crate::generate::{rule, Draft, ENTER};
use crate::machine::run_file;
use crate::report::{Group, Report};
use std::env;
use std::fs;
use std::os::unix::fs::{MetadataExt, PermissionsExt};
use std::path::{Path, PathBuf};
use std::process::{Command, Output};

pub const FILE: &str = "library";
pub const LOG: &str = "log";
/// What a run may leave beside the file when it is stopped.
pub const LOCK: &str = ".library.tugcaphi-lock";
pub const NEW: &str = ".library.tugcaphi-new";
pub const RECORD: &str = ".library.tugcaphi-step";

/// The program, from TUGCAPHI or where it is built.
pub fn program() -> PathBuf {
    let built = Path::new("../target/cli/release/tugcaphi").to_path_buf();
    let path = env::var_os("TUGCAPHI").map_or(built, PathBuf::from);
    path.canonicalize().unwrap_or(path)
}

/// All rights, 32 subjects, all cells empty; rule r enters right r anywhere.
pub fn table() -> Vec<u8> {
    let mut draft = Draft::empty(RIGHTS);
    draft.kinds = vec![2; 32];
    for right in 0..RIGHTS {
        draft.rules.push(rule(2, &[], &[[ENTER, right, 0, 1]]));
    }
    draft.file()
}

/// How many different effects there are.
pub const EFFECTS: usize = RIGHTS as usize * 32 * 32;

/// The step that has effect n.
pub fn step(n: usize) -> [u8; 5] {
    assert!(n < EFFECTS);
    [
        (n / 1024) as u8,
        (n / 32 % 32) as u8,
        (n % 32) as u8,
        255,
        255,
    ]
}

/// The file after effect n.
pub fn after(file: &[u8], n: usize) -> Vec<u8> {
    let mut file = file.to_vec();
    let [number, actuals @ ..] = step(n);
    assert_eq!(run_file(&mut file, number, actuals), 0);
    file
}

#[derive(Debug)]
pub struct Said {
    pub status: Option<i32>,
    pub out: String,
    pub err: String,
}

impl Said {
    pub fn of(output: Output) -> Said {
        let text = |bytes: Vec<u8>| String::from_utf8_lossy(&bytes).into_owned();
        Said {
            status: output.status.code(),
            out: text(output.stdout),
            err: text(output.stderr),
        }
    }

    pub fn done(&self) -> bool {
        self.status == Some(0) && says_done(&self.out)
    }

    pub fn refused(&self, number: u8) -> bool {
        let start = format!("REFUSED {number}");
        self.status == Some(2) && self.out.lines().any(|line| line.starts_with(&start))
    }

    /// Something else went wrong, which a sentence tells, with what to do.
    pub fn stopped(&self, because: &str) -> bool {
        let told = self.err.contains(because) && advises(&self.err);
        self.status == Some(3) && self.out.is_empty() && told
    }
}

/// What went wrong comes with what to do.
pub fn advises(err: &str) -> bool {
    err.contains("\n = hint: ")
}

pub fn says_done(out: &str) -> bool {
    out.lines().any(|line| line.starts_with("DONE"))
}

pub struct Scene {
    pub program: PathBuf,
    pub folder: PathBuf,
}

impl Scene {
    pub fn new(name: &str) -> Scene {
        Scene::within(&env::temp_dir(), name)
    }

    /// In memory where that can be, for thousands of runs.
    pub fn quick(name: &str) -> Scene {
        let memory = Path::new("/dev/shm");
        if memory.is_dir() {
            Scene::within(memory, name)
        } else {
            Scene::new(name)
        }
    }

    fn within(folder: &Path, name: &str) -> Scene {
        let folder = folder.join(format!("tugcaphi-{name}-{}", std::process::id()));
        fs::create_dir(&folder).expect("a folder can be made");
        Scene {
            program: program(),
            folder: folder.canonicalize().expect("it was just made"),
        }
    }

    pub fn path(&self, name: &str) -> PathBuf {
        self.folder.join(name)
    }

    pub fn command(&self, words: &[&str]) -> Command {
        let mut command = Command::new(&self.program);
        command.args(words).current_dir(&self.folder);
        command
    }

    /// A run with effect n, and further words.
    pub fn run(&self, n: usize, further: &[&str]) -> Command {
        let [rule, a, b, ..] = step(n).map(|number| number.to_string());
        let mut command = self.command(&["run", FILE, &rule, &a, &b]);
        command.args(further);
        command
    }

    pub fn call(&self, words: &[&str]) -> Said {
        said(&mut self.command(words))
    }

    pub fn write(&self, name: &str, bytes: &[u8]) {
        fs::write(self.path(name), bytes).expect("the folder can be written");
    }

    /// Empty where it is not there.
    pub fn read(&self, name: &str) -> Vec<u8> {
        fs::read(self.path(name)).unwrap_or_default()
    }

    pub fn mode(&self, name: &str) -> u32 {
        fs::symlink_metadata(self.path(name)).map_or(0, |there| there.mode() & 0o7777)
    }

    pub fn set_mode(&self, name: &str, mode: u32) {
        let mode = fs::Permissions::from_mode(mode);
        fs::set_permissions(self.path(name), mode).expect("a file of ours");
    }

    /// The names in the folder, sorted.
    pub fn names(&self) -> Vec<String> {
        let entries = fs::read_dir(&self.folder).expect("the folder can be read");
        let mut names: Vec<String> = entries
            .map(|entry| entry.unwrap().file_name().to_string_lossy().into_owned())
            .collect();
        names.sort();
        names
    }

    pub fn clear(&self) {
        for name in self.names() {
            let path = self.path(&name);
            fs::remove_file(&path)
                .or_else(|_| fs::remove_dir_all(&path))
                .expect("the folder can be cleared");
        }
    }

    /// The program is there, which is counted; else nothing can be tested.
    pub fn ready(&self, report: &mut Report) -> bool {
        let there = self.program.is_file();
        report.group("the program is there", 1, |group| {
            group.input(there, || format!("no file {}", self.program.display()));
        });
        there
    }

    /// File, log and folder are as wanted.
    pub fn stands(&self, group: &mut Group, file: &[u8], log: &[u8], about: &str, said: &Said) {
        let alike = self.read(FILE) == file;
        let logged = self.read(LOG) == log;
        let names = self.names();
        let left = names.iter().any(|name| name.contains("tugcaphi"));
        group.input(alike && logged && !left, || {
            format!("{about}: file as wanted {alike}, log {logged}, names {names:?}, {said:?}")
        });
    }

    /// The file anew, of mode 600, and nothing else.
    pub fn reset(&self, file: &[u8]) {
        self.clear();
        self.write(FILE, file);
        self.set_mode(FILE, 0o600);
    }
}

impl Drop for Scene {
    fn drop(&mut self) {
        let _ = fs::remove_dir_all(&self.folder);
    }
}

pub fn said(command: &mut Command) -> Said {
    Said::of(command.output().expect("the program can be started"))
}
