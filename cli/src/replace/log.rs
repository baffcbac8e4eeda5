//! The log of a file: a trace, five bytes a step, to which each run adds its own.

use super::hold::{same, NO_FOLLOW, NO_WAIT};
use super::liken::liken_roughly;
use super::place::{remedy, resolve, sort, sync_folder, why, Resolved};
use super::Problem;
use crate::library;
use crate::limits::{FILE_BYTES, STEP_BYTES};
use crate::trace::steps;
use std::ffi::c_int;
use std::fs::{self, File, Metadata, OpenOptions};
use std::io::{self, ErrorKind, Write};
use std::os::fd::AsRawFd;
use std::os::unix::fs::{FileExt, MetadataExt, OpenOptionsExt};
use std::path::{Path, PathBuf};

extern "C" {
    fn fallocate(file: c_int, mode: c_int, offset: i64, length: i64) -> c_int;
}

/// `fallocate` reserves room and leaves the length.
const KEEP_SIZE: c_int = 1;
/// No room on the device, or for this user; a file system without reservations says something else.
const NO_ROOM: [i32; 2] = [28, 122];

const STEP: u64 = STEP_BYTES as u64;

const ANOTHER: &str = "name another file with --log";

pub struct Log {
    /// As the user named it, for messages.
    pub given: PathBuf,
    pub path: PathBuf,
    pub before: u64,
    file: File,
    /// It was made for a step that has not come to be done.
    vain: bool,
}

fn options() -> OpenOptions {
    let mut options = OpenOptions::new();
    options
        .read(true)
        .append(true)
        .custom_flags(NO_FOLLOW | NO_WAIT);
    options
}

impl Log {
    /// The log, with room for a step; made where it is not there, with the group and mode of the
    /// file it goes with.
    pub fn open(given: &Path, with: &Metadata) -> Result<Log, Problem> {
        let path = find(given, with)?;
        let cannot = |wrong| {
            let text = format!("the log cannot be written: {}", why(&wrong));
            Problem::about(given, text, remedy(&wrong))
        };
        let (file, vain) = open_or_make(&path, with).map_err(cannot)?;
        let mut log = Log {
            given: given.to_path_buf(),
            path,
            before: 0,
            file,
            vain,
        };
        log.before = log.reserve().map_err(cannot)?;
        match log.other().map_err(cannot)? {
            None => Ok(log),
            Some(text) => Err(Problem::about(given, text, ANOTHER)),
        }
    }

    /// What it is if it is no log. A text begins with a letter, which is no rule's number, and a house file is one that
    /// the library accepts: so neither is taken for a log by a slip.
    fn other(&self) -> io::Result<Option<String>> {
        if !self.before.is_multiple_of(STEP) {
            return Ok(Some(format!(
                "{} bytes are no whole number of steps, 5 bytes each, so this is no log",
                self.before
            )));
        }
        if self.before == 0 {
            return Ok(None);
        }
        let mut front = vec![0; self.before.min(FILE_BYTES as u64 + 1) as usize];
        self.file.read_exact_at(&mut front, 0)?;
        let begins = steps(&front).first().is_some_and(|step| step.possible());
        Ok(match (begins, library::check(&front)) {
            (false, _) => {
                Some("its first 5 bytes are no step of any rule, so this is no log".to_string())
            }
            (true, 0) => Some("this is a house file, and no log".to_string()),
            (true, _) => None,
        })
    }

    /// Room for a step, so that a full device is told before the file is changed. Its length now.
    fn reserve(&self) -> io::Result<u64> {
        let before = self.file.metadata()?.len();
        if self.vain {
            // It stays where the power fails between the file's change and the step.
            sync_folder(&self.path)?;
        }
        let offset = i64::try_from(before).unwrap_or(0);
        // SAFETY: an open file and numbers.
        let done = unsafe { fallocate(self.file.as_raw_fd(), KEEP_SIZE, offset, STEP as i64) };
        let wrong = io::Error::last_os_error();
        let full = wrong
            .raw_os_error()
            .is_some_and(|number| NO_ROOM.contains(&number));
        match done != 0 && full {
            true => Err(wrong),
            false => Ok(before),
        }
    }

    /// The file was changed: the step belongs here.
    pub fn due(&mut self) {
        self.vain = false;
    }

    /// Adds the step, on the device when this comes back.
    pub fn append(&mut self, step: [u8; 5]) -> io::Result<()> {
        add(&mut self.file, &step)
    }
}

impl Drop for Log {
    fn drop(&mut self) {
        if self.vain {
            let _ = fs::remove_file(&self.path);
        }
    }
}

/// Its path without links. It is a file, or not there yet, and another than the one it goes with.
fn find(given: &Path, with: &Metadata) -> Result<PathBuf, Problem> {
    let Resolved { path, there } = resolve(given)?;
    let wrong = match there {
        Some(there) if same(&there, with) => {
            "the log must be another file than the one that the rule is run on".to_string()
        }
        Some(there) if !there.is_file() => format!("{}; the log must be a file", sort(&there)),
        _ => return Ok(path),
    };
    Err(Problem::about(given, wrong, ANOTHER))
}

/// And whether it was made.
fn open_or_make(path: &Path, with: &Metadata) -> io::Result<(File, bool)> {
    match options().open(path) {
        Err(wrong) if wrong.kind() == ErrorKind::NotFound => {
            let file = options().create_new(true).mode(0o600).open(path)?;
            liken_roughly(&file, with, with.mode());
            Ok((file, true))
        }
        opened => {
            let file = opened?;
            // Root may open it all the same.
            match file.metadata()?.mode() & 0o222 {
                0 => Err(ErrorKind::PermissionDenied.into()),
                _ => Ok((file, false)),
            }
        }
    }
}

fn add(file: &mut File, bytes: &[u8]) -> io::Result<()> {
    let before = file.metadata()?.len();
    if let Err(wrong) = file.write_all(bytes) {
        // Not even a part of a step stays; where that fails too, the next run finds the part and
        // adds the rest.
        let _ = file.set_len(before);
        return Err(wrong);
    }
    file.sync_all()
}

/// What became of a step that a stopped run may not have added.
pub enum Mended {
    There,
    Added,
    /// The log is gone, or was changed by other means.
    Changed,
}

/// Sees to it that the log has this step behind its first `before` bytes.
pub fn mend(path: &Path, before: u64, step: [u8; 5]) -> io::Result<Mended> {
    let mut file = match options().open(path) {
        Err(wrong) if wrong.kind() == ErrorKind::NotFound => return Ok(Mended::Changed),
        opened => opened?,
    };
    let there = file.metadata()?;
    let Some(behind) = there.len().checked_sub(before).filter(|_| there.is_file()) else {
        return Ok(Mended::Changed);
    };
    let mut found = [0; STEP_BYTES];
    let found = &mut found[..behind.min(STEP) as usize];
    file.read_exact_at(found, before)?;
    if !step.starts_with(found) {
        return Ok(Mended::Changed);
    }
    if found.len() == step.len() {
        file.sync_all()?;
        return Ok(Mended::There);
    }
    add(&mut file, &step[found.len()..])?;
    Ok(Mended::Added)
}
