//! Files held under a lock of the system's, which ends with the process that holds it, however that
//! ends.

use std::fs::{self, File, Metadata, OpenOptions, TryLockError};
use std::io::{self, ErrorKind, Write};
use std::os::unix::fs::{MetadataExt, OpenOptionsExt};
use std::path::{Path, PathBuf};
use std::sync::mpsc::{self, RecvTimeoutError, Sender};
use std::thread;
use std::time::Duration;

/// Flags of `open` as x86-64 has them, for which the proved library is built.
pub const NO_FOLLOW: i32 = 0o400000;
pub const NO_WAIT: i32 = 0o4000;

pub enum NotHeld {
    /// Another holds it, and the caller does not want to wait.
    Taken,
    Failed(io::Error),
}

impl From<io::Error> for NotHeld {
    fn from(wrong: io::Error) -> NotHeld {
        NotHeld::Failed(wrong)
    }
}

/// Whether two descriptions are of one file.
pub fn same(one: &Metadata, other: &Metadata) -> bool {
    (one.dev(), one.ino()) == (other.dev(), other.ino())
}

/// Whether the open file still has this name.
fn named(path: &Path, file: &File) -> io::Result<bool> {
    match fs::symlink_metadata(path) {
        Ok(there) => Ok(same(&there, &file.metadata()?)),
        Err(wrong) if wrong.kind() == ErrorKind::NotFound => Ok(false),
        Err(wrong) => Err(wrong),
    }
}

/// A file that is locked and has its name. Whoever gets the lock of a file that has lost its name
/// in the meantime (the lock's last holder removed or replaced it) opens the name again: so of all
/// who hold a file of this name one has the lock.
pub fn hold(path: &Path, wait: bool, open: impl Fn() -> io::Result<File>) -> Result<File, NotHeld> {
    loop {
        let file = open()?;
        lock(&file, wait)?;
        if named(path, &file)? {
            return Ok(file);
        }
    }
}

fn lock(file: &File, wait: bool) -> Result<(), NotHeld> {
    match file.try_lock() {
        Ok(()) => return Ok(()),
        Err(TryLockError::WouldBlock) if wait => {}
        Err(TryLockError::WouldBlock) => return Err(NotHeld::Taken),
        Err(TryLockError::Error(wrong)) => return Err(NotHeld::Failed(wrong)),
    }
    let _waiting = say_that_it_waits();
    loop {
        match file.lock() {
            Err(wrong) if wrong.kind() == ErrorKind::Interrupted => {}
            done => return Ok(done?),
        }
    }
}

/// Unless what is handed back is dropped before. A run that was suspended holds its lock, and
/// whoever waits for it should know what for.
fn say_that_it_waits() -> Sender<()> {
    let (waiting, over) = mpsc::channel();
    let _ = thread::Builder::new().spawn(move || {
        if over.recv_timeout(Duration::from_secs(1)) == Err(RecvTimeoutError::Timeout) {
            let _ = io::stderr().write_all(WAITING);
        }
    });
    waiting
}

const WAITING: &[u8] = b"note: another run is at work on this file; this one waits for its end, \
    which --no-wait would not.\n";

/// The lock file, held. Its holder removes it at the end.
pub struct Lock {
    path: PathBuf,
    file: File,
}

impl Lock {
    /// `mode` is that of a lock file made here; `liken` gives it its group, owner and exact mode.
    pub fn take(
        path: &Path,
        wait: bool,
        mode: u32,
        liken: impl Fn(&File),
    ) -> Result<Lock, NotHeld> {
        let file = hold(path, wait, || open_lock(path, mode, &liken))?;
        Ok(Lock {
            path: path.to_path_buf(),
            file,
        })
    }
}

impl Drop for Lock {
    fn drop(&mut self) {
        // A lock file of another run, made after somebody removed ours, is left to that run.
        if named(&self.path, &self.file).unwrap_or(false) {
            let _ = fs::remove_file(&self.path);
        }
    }
}

/// Another user's lock file has its mode a moment after it is made.
const TRIES: u32 = 50;

fn open_lock(path: &Path, mode: u32, liken: &impl Fn(&File)) -> io::Result<File> {
    let mut options = OpenOptions::new();
    options
        .read(true)
        .write(true)
        .custom_flags(NO_FOLLOW | NO_WAIT)
        .mode(mode);
    let mut tries = 0;
    loop {
        // Not in one call: a folder that all may write refuses to open another's file with the flag
        // that makes one.
        match options.open(path) {
            Err(wrong) if wrong.kind() == ErrorKind::NotFound => {}
            Err(wrong) if wrong.kind() == ErrorKind::PermissionDenied => {
                tries += 1;
                thread::sleep(Duration::from_millis(10));
                // One that was left without its mode. Should its run be at work still, it holds the
                // file itself.
                if tries >= TRIES {
                    fs::remove_file(path).map_err(|_| wrong)?;
                }
                continue;
            }
            done => return done,
        }
        match options.clone().create_new(true).open(path) {
            Err(wrong) if wrong.kind() == ErrorKind::AlreadyExists => {}
            Err(wrong) => return Err(wrong),
            Ok(file) => {
                liken(&file);
                return Ok(file);
            }
        }
    }
}
