//! A file replaced in place, and a step added to its log, so that a kill at any moment leaves the
//! old file or the new one, whole, and the next run puts right what the stopped one left undone.
//!
//! Beside FILE stand, while a run is at work:
//!
//! - `.FILE.tugcaphi-lock`, locked; runs wait for each other here. Its holder removes it.
//! - `.FILE.tugcaphi-new`, the new content, until it gets the file's name.
//! - `.FILE.tugcaphi-step`, where there is a log: the step, until it is in the log.
//!
//! The order, each line on the device before the next begins:
//!
//! 1. the new content, with the mode, group and owner of the old file;
//! 2. the record of the step;
//! 3. the new content gets the file's name: from here on the rule was run;
//! 4. the step in the log;
//! 5. the record is removed.
//!
//! So the file is written first and its log second. A run stopped before 3 changed nothing; the
//! next run removes its new content and its record. One stopped between 3 and 5 left a record whose
//! new content is the file's: the next run, with a log or without, adds the step where the log
//! lacks it, before it does anything else.
//!
//! Runs hold, besides the lock file, the file itself and the new content. So nothing is lost where
//! somebody removes the lock file of a run at work: the next one then waits for the file.

mod change;
mod hold;
mod liken;
mod log;
mod mend;
mod place;
mod record;

use change::Change;
use hold::Lock;
use log::Log;
use place::Place;
use std::fs::{File, Metadata};
use std::path::{Path, PathBuf};

pub struct Options {
    /// Whether to wait for another run's end, or to refuse.
    pub wait: bool,
    pub log: Option<PathBuf>,
}

/// What to do with what was read, under the lock.
pub enum Edit {
    Keep,
    /// The file's new content, and its step where there is a log.
    Write {
        file: Vec<u8>,
        log: Option<[u8; 5]>,
    },
}

/// What was done. The notes are sentences for the user: what could not be kept, what was put right.
#[derive(Debug)]
pub enum Outcome<T> {
    Unchanged { value: T, notes: Vec<String> },
    Done { value: T, notes: Vec<String> },
}

/// What went wrong, and what to do.
#[derive(Debug)]
pub struct Problem {
    pub message: String,
    pub advice: String,
}

impl Problem {
    /// About a file, as the user named it.
    fn about(given: &Path, text: impl AsRef<str>, advice: impl Into<String>) -> Problem {
        Problem {
            message: format!("{}: {}", given.display(), text.as_ref()),
            advice: advice.into(),
        }
    }
}

/// Hands the file's content to `work`, under the lock, and does what `work` says. `Done` comes back
/// when all is on the device. Of a file of 64 kB or more `work` sees the first 64 kB, and may only
/// keep it.
pub fn edit<T>(
    path: &Path,
    options: &Options,
    work: impl FnOnce(&[u8]) -> (Edit, T),
) -> Result<Outcome<T>, Problem> {
    let held = Held::take(path, options)?;
    let content = held.place.read(&held.old)?;
    let (edit, value) = work(&content);
    let Edit::Write { file, log: step } = edit else {
        let notes = held.notes;
        return Ok(Outcome::Unchanged { value, notes });
    };
    if content.len().max(file.len()) as u64 >= place::MOST {
        let advice = "see that this is the file meant; a house file is far shorter";
        return Err(held.place.about("too long to be replaced", advice));
    }
    let logged = match (&options.log, step) {
        (Some(log), Some(step)) => Some((Log::open(log, &held.was)?, step)),
        _ => None,
    };
    let notes = held.write(&file, logged)?;
    Ok(Outcome::Done { value, notes })
}

/// A new file; over one that is there only with `force`, under the same lock and with its mode,
/// group and owner.
pub fn create(
    path: &Path,
    force: bool,
    wait: bool,
    content: &[u8],
) -> Result<Vec<String>, Problem> {
    let resolved = place::resolve(path)?;
    if resolved.there.is_none() {
        let place = Place::at(path, resolved.path);
        let _lock = place.lock(wait, None)?;
        place.remove_new(wait)?;
        change::make(&place, content)?;
        return Ok(Vec::new());
    }
    if !force {
        let text = "there is a file of this name already";
        return Err(Problem::about(path, text, "--force replaces it"));
    }
    Held::take(path, &Options { wait, log: None })?.write(content, None)
}

/// A file under the lock, with nothing left beside it by a stopped run.
struct Held<'a> {
    place: Place<'a>,
    old: File,
    was: Metadata,
    notes: Vec<String>,
    /// The last field, and so given up last.
    _lock: Lock,
}

impl Held<'_> {
    fn take<'a>(path: &'a Path, options: &Options) -> Result<Held<'a>, Problem> {
        let place = Place::of(path)?;
        let lock = place.lock(options.wait, Some(&place.look()?))?;
        let old = place.hold(options.wait)?;
        let notes = mend::mend(&place, &old, options)?;
        let was = place.alone(&old)?;
        Ok(Held {
            place,
            old,
            was,
            notes,
            _lock: lock,
        })
    }

    fn write(self, file: &[u8], logged: Option<(Log, [u8; 5])>) -> Result<Vec<String>, Problem> {
        let change = Change {
            place: &self.place,
            old: &self.old,
            was: &self.was,
            file,
        };
        let lost = change.make(logged)?;
        Ok(self.notes.into_iter().chain(lost).collect())
    }
}
