//! What a stopped run left is put right before anything else is done. A run was stopped after it
//! changed the file exactly if its record's new content is the file's.

use super::hold::{NO_FOLLOW, NO_WAIT};
use super::log::{self, Mended};
use super::place::{remedy, sync_folder, Place, MOST};
use super::record::Record;
use super::{Options, Problem};
use std::fs::{self, File, OpenOptions};
use std::io::{self, ErrorKind, Read};
use std::os::unix::fs::{MetadataExt, OpenOptionsExt};

extern "C" {
    fn geteuid() -> u32;
}

/// Under the lock, with the file held. The notes say what was done or could not be.
pub fn mend(place: &Place, old: &File, options: &Options) -> Result<Vec<String>, Problem> {
    let mut notes = Vec::new();
    let cannot = |wrong: io::Error| {
        let text = "what a stopped run left beside it cannot be put right";
        place.failed(text, &wrong, remedy(&wrong))
    };
    if let Some(left) = left(place).map_err(cannot)? {
        if left.hidden {
            notes.push(HIDDEN.to_string());
        }
        if let Some(record) = &left.record {
            let changed = place.read(old)? == record.file;
            if changed && left.trusted(options) {
                notes.extend(finish(place, record)?);
            } else if changed || !place.new.exists() {
                notes.push(lacking(record, if changed { FOREIGN } else { OTHERWISE }));
            }
        }
        // The record first: without it the new content is of a run that changed nothing.
        fs::remove_file(&place.record).map_err(cannot)?;
        sync_folder(&place.path).map_err(cannot)?;
    }
    place.remove_new(options.wait)?;
    Ok(notes)
}

struct Left {
    owner: u32,
    /// None where it was not written to its end, or cannot be read.
    record: Option<Record>,
    /// It has content, and the caller may not read it.
    hidden: bool,
}

fn left(place: &Place) -> io::Result<Option<Left>> {
    let there = match fs::symlink_metadata(&place.record) {
        Err(wrong) if wrong.kind() == ErrorKind::NotFound => return Ok(None),
        there => there?,
    };
    let mut left = Left {
        owner: there.uid(),
        record: None,
        hidden: false,
    };
    // What is no file was put there by somebody, and is removed with the rest.
    if there.is_file() {
        let opened = OpenOptions::new()
            .read(true)
            .custom_flags(NO_FOLLOW | NO_WAIT)
            .open(&place.record);
        match opened {
            Err(wrong) if wrong.kind() == ErrorKind::PermissionDenied => {
                left.hidden = there.len() > 0;
            }
            opened => {
                let mut bytes = Vec::new();
                opened?.take(4 * MOST).read_to_end(&mut bytes)?;
                left.record = Record::read(&bytes);
            }
        }
    }
    Ok(Some(left))
}

impl Left {
    /// The caller's own, or of the log that the caller names. Any other could have been put there
    /// to have the caller write into a file of another's choice.
    fn trusted(&self, options: &Options) -> bool {
        let named = || {
            let log = fs::canonicalize(options.log.as_ref()?).ok()?;
            Some(log == self.record.as_ref()?.log)
        };
        // SAFETY: it has no arguments and cannot fail.
        self.owner == unsafe { geteuid() } || named().unwrap_or(false)
    }
}

const OTHERWISE: &str = "the file was changed since by other means";
const REWRITTEN: &str = "the log was changed since by other means";
const FOREIGN: &str = "it was another user's, for a log that this run was not told to write";

const HIDDEN: &str =
    "another user's run was stopped, and what it left cannot be read: its log may lack its step.";

fn lacking(record: &Record, because: &str) -> String {
    format!(
        "a run was stopped before its step was in {}, and {because}: the log may lack the step {}.",
        record.log.display(),
        words(record.step)
    )
}

fn words(step: [u8; 5]) -> String {
    step.map(|byte| byte.to_string()).join(" ")
}

fn finish(place: &Place, record: &Record) -> Result<Option<String>, Problem> {
    let (log, step) = (record.log.display(), words(record.step));
    match log::mend(&record.log, record.before, record.step) {
        Ok(Mended::There) => Ok(None),
        Ok(Mended::Added) => {
            let text = format!(
                "a run was stopped before its step was in {log}; the step {step} is there now."
            );
            Ok(Some(text))
        }
        Ok(Mended::Changed) => Ok(Some(lacking(record, REWRITTEN))),
        Err(wrong) => {
            let text = format!(
                "a run was stopped before its step was in {log}, and the step {step} cannot be \
                 added now"
            );
            let advice = format!(
                "see to it that the log can be written; or remove {}, and the log will lack the \
                 step",
                place.record.display()
            );
            Err(place.failed(text, &wrong, advice))
        }
    }
}
