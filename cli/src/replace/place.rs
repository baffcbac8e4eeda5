//! Where a file stands, the names beside it, and what is refused of it.

use super::hold::{hold, Lock, NotHeld, NO_FOLLOW, NO_WAIT};
use super::liken::liken_roughly;
use super::Problem;
use std::ffi::OsString;
use std::fs::{self, File, Metadata, OpenOptions};
use std::io::{self, ErrorKind, Read};
use std::os::unix::fs::{FileTypeExt, MetadataExt, OpenOptionsExt};
use std::path::{Path, PathBuf};

/// The most that is read of a file. Every house file is shorter, and what is longer is refused
/// alike, cut off or not.
pub const MOST: u64 = 65_536;

/// A path without links, and what is there.
pub struct Resolved {
    pub path: PathBuf,
    pub there: Option<Metadata>,
}

pub fn resolve(given: &Path) -> Result<Resolved, Problem> {
    let unreached = |wrong: &io::Error| {
        Problem::about(
            given,
            why(wrong),
            "give the path of a file that you can reach",
        )
    };
    match fs::canonicalize(given) {
        Ok(path) => {
            let there = fs::symlink_metadata(&path).map_err(|wrong| unreached(&wrong))?;
            return Ok(Resolved {
                path,
                there: Some(there),
            });
        }
        Err(wrong) if wrong.kind() == ErrorKind::NotFound => {}
        Err(wrong) => return Err(unreached(&wrong)),
    }
    if fs::symlink_metadata(given).is_ok() {
        let text = "a symbolic link that leads to no file";
        let advice = "let it lead to a file, or remove it";
        return Err(Problem::about(given, text, advice));
    }
    let ended = given.as_os_str().as_encoded_bytes().ends_with(b"/");
    let (Some(name), Some(folder), false) = (given.file_name(), given.parent(), ended) else {
        let text = "this is no name of a file";
        return Err(Problem::about(given, text, "give the path of a file"));
    };
    let folder = fs::canonicalize(Path::new(".").join(folder)).map_err(|wrong| {
        let text = format!("its folder: {}", why(&wrong));
        Problem::about(given, text, "name a folder that is there, or make it first")
    })?;
    Ok(Resolved {
        path: folder.join(name),
        there: None,
    })
}

/// What the system says, without its number.
pub fn why(wrong: &io::Error) -> String {
    let text = wrong.to_string();
    text.split(" (os error")
        .next()
        .unwrap_or_default()
        .to_string()
}

/// What to do about what the system says.
pub fn remedy(wrong: &io::Error) -> &'static str {
    match wrong.kind() {
        ErrorKind::PermissionDenied | ErrorKind::ReadOnlyFilesystem => {
            "you need a file that you may write, in a folder in which you may make files"
        }
        ErrorKind::StorageFull | ErrorKind::QuotaExceeded => {
            "make room on the device, and run it again"
        }
        ErrorKind::FileTooLarge => "raise the limit on the size of files, and run it again",
        _ => "see to the file, its folder and the device, and run it again",
    }
}

/// What is there that is no file.
pub fn sort(there: &Metadata) -> &'static str {
    let kind = there.file_type();
    if kind.is_dir() {
        "a folder"
    } else if kind.is_fifo() {
        "a pipe"
    } else if kind.is_socket() {
        "a socket"
    } else {
        "a device"
    }
}

/// The names in a file's folder, on the device when this comes back.
pub fn sync_folder(path: &Path) -> io::Result<()> {
    File::open(path.parent().unwrap_or(Path::new("/")))?.sync_all()
}

pub struct Place<'a> {
    /// As the user named it, for messages.
    given: &'a Path,
    pub path: PathBuf,
    lock: PathBuf,
    pub new: PathBuf,
    pub record: PathBuf,
}

impl Place<'_> {
    /// The place of a file that is there.
    pub fn of(given: &Path) -> Result<Place<'_>, Problem> {
        let resolved = resolve(given)?;
        match resolved.there {
            None => {
                let text = "there is no file of this name";
                let advice = "give the path of a house file; tugcaphi make makes one of a table";
                Err(Problem::about(given, text, advice))
            }
            Some(there) => {
                let place = Place::at(given, resolved.path);
                place.regular(&there).map(|()| place)
            }
        }
    }

    pub fn at(given: &Path, path: PathBuf) -> Place<'_> {
        let beside = |ending: &str| {
            let mut name = OsString::from(".");
            name.push(path.file_name().unwrap_or_default());
            name.push(ending);
            path.with_file_name(name)
        };
        Place {
            given,
            lock: beside(".tugcaphi-lock"),
            new: beside(".tugcaphi-new"),
            record: beside(".tugcaphi-step"),
            path,
        }
    }

    pub fn about(&self, text: impl AsRef<str>, advice: impl Into<String>) -> Problem {
        Problem::about(self.given, text, advice)
    }

    pub fn failed(
        &self,
        text: impl AsRef<str>,
        wrong: &io::Error,
        advice: impl Into<String>,
    ) -> Problem {
        self.about(format!("{}: {}", text.as_ref(), why(wrong)), advice)
    }

    pub fn folder(&self) -> &Path {
        self.path.parent().unwrap_or(Path::new("/"))
    }

    fn regular(&self, there: &Metadata) -> Result<(), Problem> {
        if there.is_file() {
            return Ok(());
        }
        let text = format!("{}, which cannot be replaced", sort(there));
        Err(self.about(text, "name a file"))
    }

    fn open(&self) -> io::Result<File> {
        OpenOptions::new()
            .read(true)
            .write(true)
            .custom_flags(NO_FOLLOW | NO_WAIT)
            .open(&self.path)
    }

    fn not_opened(&self, wrong: &io::Error) -> Problem {
        match wrong.kind() {
            ErrorKind::PermissionDenied => {
                let text = "you may not read and write this file";
                self.failed(text, wrong, "ask its owner")
            }
            _ => {
                let text = "it cannot be opened for reading and writing";
                self.failed(text, wrong, remedy(wrong))
            }
        }
    }

    /// Opens the file, before there is anything beside it, and says what it is.
    pub fn look(&self) -> Result<Metadata, Problem> {
        let file = self.open().map_err(|wrong| self.not_opened(&wrong))?;
        let there = self.single(&file)?;
        // Root may open it all the same.
        if there.mode() & 0o222 == 0 {
            let text = "by its mode nobody may write this file";
            return Err(self.about(text, "if it is to be changed, chmod u+w it first"));
        }
        Ok(there)
    }

    /// The file that is held, with its one name.
    pub fn alone(&self, file: &File) -> Result<Metadata, Problem> {
        let there = self.single(file)?;
        if there.nlink() == 0 {
            return Err(self.overtaken());
        }
        Ok(there)
    }

    /// A regular file with no name but this: a rename would part it from its other names.
    fn single(&self, file: &File) -> Result<Metadata, Problem> {
        let there = file.metadata().map_err(|wrong| self.unread(&wrong))?;
        self.regular(&there)?;
        let names = there.nlink();
        if names <= 1 {
            return Ok(there);
        }
        let text = format!(
            "this file has {names} names (hard links), and a change would reach one of them alone"
        );
        Err(self.about(text, "copy it, and work on the copy"))
    }

    fn unread(&self, wrong: &io::Error) -> Problem {
        self.failed("it cannot be read", wrong, remedy(wrong))
    }

    /// Programs that know nothing of the lock can replace the file, or write into it, at any time.
    pub fn overtaken(&self) -> Problem {
        let text = "another program changed this file meanwhile, so nothing was changed";
        self.about(text, "run it again")
    }

    /// The file, held.
    pub fn hold(&self, wait: bool) -> Result<File, Problem> {
        hold(&self.path, wait, || self.open()).map_err(|not| match not {
            NotHeld::Failed(wrong) => self.not_opened(&wrong),
            taken => self.not_held(taken),
        })
    }

    fn not_held(&self, not: NotHeld) -> Problem {
        match not {
            NotHeld::Taken => self.about(
                "another run is at work on this file",
                "without --no-wait this one waits for its end",
            ),
            NotHeld::Failed(wrong) => self.failed("it cannot be locked", &wrong, remedy(&wrong)),
        }
    }

    pub fn read(&self, mut file: &File) -> Result<Vec<u8>, Problem> {
        let mut content = Vec::new();
        let whole =
            io::Seek::rewind(&mut file).and_then(|()| file.take(MOST).read_to_end(&mut content));
        match whole {
            Ok(_) => Ok(content),
            Err(wrong) => Err(self.unread(&wrong)),
        }
    }

    /// The lock file, held. Whoever may write the file may open it, and nobody else.
    pub fn lock(&self, wait: bool, was: Option<&Metadata>) -> Result<Lock, Problem> {
        let mode = was.map_or(0o600, |was| {
            let write = was.mode() & 0o222;
            write | write << 1
        });
        let like = |file: &File| {
            if let Some(was) = was {
                liken_roughly(file, was, mode);
            }
        };
        Lock::take(&self.lock, wait, mode, like).map_err(|not| match not {
            NotHeld::Taken => self.not_held(not),
            NotHeld::Failed(wrong) => self.no_lock(&wrong),
        })
    }

    fn no_lock(&self, wrong: &io::Error) -> Problem {
        let lock = self.lock.display();
        let text = format!("its lock file {lock} cannot be made, so nothing was changed");
        self.failed(text, wrong, remedy(wrong))
    }

    /// Removes the new content that a stopped run left. A run at work holds its own.
    pub fn remove_new(&self, wait: bool) -> Result<(), Problem> {
        let open = || {
            OpenOptions::new()
                .write(true)
                .custom_flags(NO_FOLLOW | NO_WAIT)
                .open(&self.new)
        };
        let removed = match hold(&self.new, wait, open) {
            Ok(_held) => fs::remove_file(&self.new),
            Err(NotHeld::Taken) => return Err(self.not_held(NotHeld::Taken)),
            Err(NotHeld::Failed(wrong)) if wrong.kind() == ErrorKind::NotFound => Ok(()),
            // Of another user, and not to be opened; it may be removed all the same, where the
            // folder lets it.
            Err(NotHeld::Failed(_)) => fs::remove_file(&self.new),
        };
        removed.map_err(|wrong| {
            let left = self.new.display();
            let text = format!("a stopped run left {left}, which cannot be removed");
            self.failed(text, &wrong, "remove it, or ask whoever owns it")
        })
    }

    /// The file for the new content, empty and held.
    pub fn make_new(&self, mode: u32) -> Result<File, Problem> {
        let make = || {
            OpenOptions::new()
                .write(true)
                .create_new(true)
                .mode(mode)
                .custom_flags(NO_FOLLOW)
                .open(&self.new)
        };
        hold(&self.new, true, make).map_err(|not| match not {
            NotHeld::Taken => self.not_held(not),
            NotHeld::Failed(wrong) => {
                let folder = self.folder().display();
                let text = format!("no file can be made in {folder}, so nothing was changed");
                self.failed(text, &wrong, remedy(&wrong))
            }
        })
    }
}
