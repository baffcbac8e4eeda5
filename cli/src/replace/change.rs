//! The change itself, in the order that the head of `replace` tells.

use super::liken::{liken, liken_roughly, Lost};
use super::log::Log;
use super::place::{remedy, sync_folder, why, Place};
use super::record::Record;
use super::Problem;
use std::ffi::{c_char, c_int, CString};
use std::fs::{self, File, Metadata, OpenOptions};
use std::io::{self, ErrorKind, Write};
use std::os::unix::ffi::OsStrExt;
use std::os::unix::fs::{MetadataExt, OpenOptionsExt};
use std::path::Path;

pub struct Change<'a> {
    pub place: &'a Place<'a>,
    pub old: &'a File,
    /// The old file as it was before it was read.
    pub was: &'a Metadata,
    pub file: &'a [u8],
}

impl Change<'_> {
    /// The notes say what of the old file could not be kept.
    pub fn make(&self, logged: Option<(Log, [u8; 5])>) -> Result<Vec<String>, Problem> {
        let place = self.place;
        // Held until all is done: it is the file by then.
        let new = place.make_new(0o600)?;
        let mut notes = self.prepare(&new, &logged).inspect_err(|_| {
            let _ = fs::remove_file(&place.record);
            let _ = fs::remove_file(&place.new);
        })?;
        // The rule was run. Whatever fails from here on is said, and the next run mends it.
        let synced = sync_folder(&place.path);
        let Some((mut log, step)) = logged else {
            let text = "the file was changed, but is not certain to be on the device";
            let advice = "the rule was run: see to the device before you go on";
            return match synced {
                Ok(()) => Ok(notes),
                Err(wrong) => Err(place.failed(text, &wrong, advice)),
            };
        };
        log.due();
        synced.and_then(|()| log.append(step)).map_err(|wrong| {
            let log = log.given.display();
            let text = format!(
                "the file was changed, but it or its step in {log} is not certain to be on the \
                 device"
            );
            let advice = "the rule was run: see to the device before you go on; the next run on \
                          this file sees to the step";
            place.failed(text, &wrong, advice)
        })?;
        let removed = fs::remove_file(&place.record).and_then(|()| sync_folder(&place.path));
        if let Err(wrong) = removed {
            notes.push(format!(
                "{} is left: {}.",
                place.record.display(),
                why(&wrong)
            ));
        }
        Ok(notes)
    }

    /// All that comes before the file has its new content, and this.
    fn prepare(&self, new: &File, logged: &Option<(Log, [u8; 5])>) -> Result<Vec<String>, Problem> {
        let place = self.place;
        let lost = liken(new, self.old, self.was).map_err(|lost| {
            place.failed(
                format!("its {} cannot be kept, so nothing was changed", lost.what),
                &lost.why,
                format!(
                    "ask one who may give a file this {}, as its owner",
                    lost.what
                ),
            )
        })?;
        let unwritten = |wrong: io::Error| {
            let text = "the new content cannot be written, so nothing was changed";
            place.failed(text, &wrong, remedy(&wrong))
        };
        fill(new, self.file).map_err(unwritten)?;
        if let Some((log, step)) = logged {
            self.record(log, *step).map_err(unwritten)?;
        }
        self.untouched()?;
        fs::rename(&place.new, &place.path).map_err(|wrong| {
            let text = "the new content cannot get its name, so nothing was changed";
            place.failed(text, &wrong, remedy(&wrong))
        })?;
        Ok(lost.into_iter().map(|lost| self.note(lost)).collect())
    }

    fn record(&self, log: &Log, step: [u8; 5]) -> io::Result<()> {
        let record = Record {
            step,
            log: log.path.clone(),
            before: log.before,
            file: self.file.to_vec(),
        };
        let file = OpenOptions::new()
            .write(true)
            .create_new(true)
            .mode(0o600)
            .open(&self.place.record)?;
        liken_roughly(&file, self.was, self.was.mode());
        fill(&file, &record.bytes())?;
        sync_folder(&self.place.path)
    }

    /// Nobody else has replaced the file, or written into it, since it was read.
    fn untouched(&self) -> Result<(), Problem> {
        let mark = |of: &Metadata| {
            (
                (of.dev(), of.ino(), of.len()),
                (of.mtime(), of.mtime_nsec(), of.ctime(), of.ctime_nsec()),
            )
        };
        match fs::symlink_metadata(&self.place.path) {
            Ok(now) if mark(&now) == mark(self.was) => Ok(()),
            _ => Err(self.place.overtaken()),
        }
    }

    fn note(&self, lost: Lost) -> String {
        let yours = if lost.what == "owner" {
            ", and it is yours now"
        } else {
            ""
        };
        let text = format!("its {} could not be kept{yours}", lost.what);
        self.place.failed(text, &lost.why, "").message + "."
    }
}

/// A file where none is, under the lock.
pub fn make(place: &Place, content: &[u8]) -> Result<(), Problem> {
    let new = place.make_new(0o666)?;
    let named = fill(&new, content).and_then(|()| name(&place.new, &place.path));
    if let Err(wrong) = named {
        let _ = fs::remove_file(&place.new);
        return Err(match wrong.kind() {
            ErrorKind::AlreadyExists => {
                place.about("there is a file of this name now", "--force replaces it")
            }
            _ => {
                let text = "it cannot be written, and was not made";
                place.failed(text, &wrong, remedy(&wrong))
            }
        });
    }
    sync_folder(&place.path).map_err(|wrong| {
        let text = "it was made, but is not certain to be on the device";
        place.failed(
            text,
            &wrong,
            "see to the device, and make it again with --force",
        )
    })
}

/// The content, on the device when this comes back.
fn fill(mut file: &File, content: &[u8]) -> io::Result<()> {
    // A limit on the size of files is an error like any other, and not the end of the process.
    // SAFETY: two numbers.
    unsafe { signal(LIMIT, IGNORED) };
    file.write_all(content)?;
    file.sync_all()
}

const LIMIT: c_int = 25;
const IGNORED: usize = 1;

extern "C" {
    fn signal(number: c_int, handler: usize) -> usize;
    fn renameat2(
        from_folder: c_int,
        from: *const c_char,
        to_folder: c_int,
        to: *const c_char,
        flags: u32,
    ) -> c_int;
}

/// Paths are relative to the folder that the process is in.
const HERE: c_int = -100;
/// The rename replaces nothing.
const NO_REPLACE: u32 = 1;
/// What a file system says that cannot do this.
const NOT_KNOWN: [i32; 2] = [22, 38];

/// Gives a new file its name, where no file has it.
fn name(from: &Path, to: &Path) -> io::Result<()> {
    let (old, new) = (
        CString::new(from.as_os_str().as_bytes())?,
        CString::new(to.as_os_str().as_bytes())?,
    );
    // SAFETY: strings that end in a zero, and numbers.
    if unsafe { renameat2(HERE, old.as_ptr(), HERE, new.as_ptr(), NO_REPLACE) } == 0 {
        return Ok(());
    }
    let wrong = io::Error::last_os_error();
    if !wrong
        .raw_os_error()
        .is_some_and(|number| NOT_KNOWN.contains(&number))
    {
        return Err(wrong);
    }
    if fs::symlink_metadata(to).is_ok() {
        return Err(ErrorKind::AlreadyExists.into());
    }
    fs::rename(from, to)
}
