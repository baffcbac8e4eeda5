//! A new file gets the group, mode, owner and attributes of the one whose place it takes, before it
//! has a byte of content.

use std::ffi::{c_char, c_int, c_void, CStr, CString};
use std::fs::{File, Metadata, Permissions};
use std::io;
use std::os::fd::AsRawFd;
use std::os::unix::fs::{fchown, MetadataExt, PermissionsExt};

extern "C" {
    fn flistxattr(file: c_int, list: *mut c_char, size: usize) -> isize;
    fn fgetxattr(file: c_int, name: *const c_char, value: *mut c_void, size: usize) -> isize;
    fn fsetxattr(
        file: c_int,
        name: *const c_char,
        value: *const c_void,
        size: usize,
        flags: c_int,
    ) -> c_int;
    fn fremovexattr(file: c_int, name: *const c_char) -> c_int;
}

/// The attribute that holds an access control list; with one, the mode's group bits are a mask and
/// no longer the group's.
const ACCESS_LIST: &CStr = c"system.posix_acl_access";

/// What could not be kept of the old file, and why.
pub struct Lost {
    pub what: String,
    pub why: io::Error,
}

/// Group, mode and access control list, without which others could read or write the file than
/// before: all or an error. The owner and other attributes are kept where the system lets it; those
/// that are not are handed back.
pub fn liken(new: &File, old: &File, was: &Metadata) -> Result<Vec<Lost>, Lost> {
    let mut lost = Vec::new();
    let made = new.metadata().map_err(|why| Lost::of("mode", why))?;
    if made.gid() != was.gid() {
        fchown(new, None, Some(was.gid())).map_err(|why| Lost::of("group", why))?;
    }
    let mut mode = was.mode() & 0o7777;
    if made.uid() != was.uid() {
        if let Err(why) = fchown(new, Some(was.uid()), None) {
            lost.push(Lost::of("owner", why));
            // Bits by which a program would run as its owner are not for another owner.
            mode &= 0o777;
        }
    }
    new.set_permissions(Permissions::from_mode(mode))
        .map_err(|why| Lost::of("mode", why))?;
    copy_attributes(new, old, &mut lost)?;
    let made = new.metadata().map_err(|why| Lost::of("mode", why))?;
    if made.gid() != was.gid() || made.mode() & 0o7777 != mode {
        let why = io::Error::other("the system did not take it");
        return Err(Lost::of("mode and group", why));
    }
    Ok(lost)
}

/// The owner and the group, where the system lets it, and the mode; of another group's the owner's
/// part alone. For the lock file, the record and a new log, so that whoever may write the old file
/// can go on with them.
pub fn liken_roughly(new: &File, was: &Metadata, mode: u32) {
    let grouped = fchown(new, None, Some(was.gid())).is_ok();
    let _ = fchown(new, Some(was.uid()), None);
    let mode = if grouped { mode & 0o777 } else { mode & 0o700 };
    let _ = new.set_permissions(Permissions::from_mode(mode));
}

impl Lost {
    fn of(what: &str, why: io::Error) -> Lost {
        Lost {
            what: what.to_string(),
            why,
        }
    }
}

fn copy_attributes(new: &File, old: &File, lost: &mut Vec<Lost>) -> Result<(), Lost> {
    let unlisted = |why| Lost::of("access control list", why);
    let names = names(old).map_err(unlisted)?;
    if !names.iter().any(|name| name.as_c_str() == ACCESS_LIST) {
        // A folder may give its files an access control list of its own.
        // SAFETY: an open file and a string that ends in a zero.
        let removed = unsafe { fremovexattr(new.as_raw_fd(), ACCESS_LIST.as_ptr()) };
        had(removed as isize).map_err(unlisted)?;
    }
    for name in names {
        let Err(why) = copy_attribute(new, old, &name) else {
            continue;
        };
        if name.as_c_str() == ACCESS_LIST {
            return Err(unlisted(why));
        }
        let what = format!("attribute {}", name.to_string_lossy());
        lost.push(Lost::of(&what, why));
    }
    Ok(())
}

/// What a call on attributes said: nothing there, or a file system without attributes, is 0.
fn had(said: isize) -> io::Result<usize> {
    const NONE_THERE: i32 = 61;
    const NOT_SUPPORTED: i32 = 95;
    let wrong = io::Error::last_os_error();
    match usize::try_from(said) {
        Ok(length) => Ok(length),
        Err(_) if matches!(wrong.raw_os_error(), Some(NONE_THERE | NOT_SUPPORTED)) => Ok(0),
        Err(_) => Err(wrong),
    }
}

/// The names of a file's extended attributes.
fn names(file: &File) -> io::Result<Vec<CString>> {
    let mut list = vec![0u8; 65_536];
    // SAFETY: an open file, and a buffer with its length.
    let said = unsafe { flistxattr(file.as_raw_fd(), list.as_mut_ptr().cast(), list.len()) };
    list.truncate(had(said)?);
    Ok(list
        .split(|&byte| byte == 0)
        .filter(|name| !name.is_empty())
        .filter_map(|name| CString::new(name).ok())
        .collect())
}

fn copy_attribute(new: &File, old: &File, name: &CStr) -> io::Result<()> {
    let mut value = vec![0u8; 65_536];
    // SAFETY: open files, a string that ends in a zero, and a buffer with its length.
    let length = unsafe {
        fgetxattr(
            old.as_raw_fd(),
            name.as_ptr(),
            value.as_mut_ptr().cast(),
            value.len(),
        )
    };
    let length = usize::try_from(length).map_err(|_| io::Error::last_os_error())?;
    // SAFETY: as above; the length is of what was read into the buffer.
    let done = unsafe {
        fsetxattr(
            new.as_raw_fd(),
            name.as_ptr(),
            value.as_ptr().cast(),
            length,
            0,
        )
    };
    if done == 0 {
        Ok(())
    } else {
        Err(io::Error::last_os_error())
    }
}
