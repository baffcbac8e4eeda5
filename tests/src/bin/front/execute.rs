//! Runs the program in a folder of its own.

use std::env;
use std::fs::{self, File};
use std::path::{Path, PathBuf};
use std::process::{Command, Stdio};

pub use reference::scene::program;

/// What a command printed, and its exit status.
#[derive(Debug, PartialEq, Eq)]
pub struct Said {
    pub out: Vec<u8>,
    pub err: Vec<u8>,
    pub status: i32,
}

/// An empty folder, removed when it is no longer needed.
pub struct Folder {
    pub path: PathBuf,
}

impl Folder {
    pub fn new(name: &str) -> Folder {
        let path = env::temp_dir().join(format!("front-{}-{name}", std::process::id()));
        let _ = fs::remove_dir_all(&path);
        fs::create_dir_all(&path).expect("a folder for temporary files");
        Folder { path }
    }

    pub fn write(&self, name: &str, content: &[u8]) {
        let path = self.path.join(name);
        if let Some(folder) = path.parent() {
            fs::create_dir_all(folder).expect("a folder for temporary files");
        }
        fs::write(path, content).expect("a temporary file");
    }

    pub fn read(&self, name: &str) -> Vec<u8> {
        fs::read(self.path.join(name)).unwrap_or_default()
    }

    /// Copies of the example tables, where the docs have them.
    pub fn with_examples(self) -> Folder {
        for entry in fs::read_dir("../tables").expect("the example tables") {
            let path = entry.expect("an example table").path();
            let name = path.file_name().unwrap_or_default().to_string_lossy();
            let content = fs::read(&path).expect("an example table");
            self.write(&format!("tables/{name}"), &content);
        }
        self
    }

    /// Runs the program with these words, and with this file as standard input.
    pub fn run(&self, words: &[String], input: Option<&str>) -> Said {
        run_in(&self.path, words, input)
    }
}

impl Drop for Folder {
    fn drop(&mut self) {
        let _ = fs::remove_dir_all(&self.path);
    }
}

fn run_in(folder: &Path, words: &[String], input: Option<&str>) -> Said {
    let stdin = match input {
        Some(name) => File::open(folder.join(name)).map_or(Stdio::null(), Stdio::from),
        None => Stdio::null(),
    };
    let output = Command::new(program())
        .args(words)
        .current_dir(folder)
        .stdin(stdin)
        .output();
    match output {
        Ok(output) => Said {
            out: output.stdout,
            err: output.stderr,
            status: output.status.code().unwrap_or(-1),
        },
        Err(wrong) => Said {
            out: Vec::new(),
            err: format!("{}: {wrong}", program().display()).into_bytes(),
            status: -1,
        },
    }
}
