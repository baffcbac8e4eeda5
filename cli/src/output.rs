//! Files that the program writes besides a rule run's.

use crate::failure::Failure;
use crate::input::shown;
use crate::replace;
use crate::table::is_table;
use std::ffi::OsStr;
use std::fs::File;
use std::io::Read;
use std::path::Path;

/// How to go about a file that is there.
pub struct Manner {
    pub force: bool,
    pub wait: bool,
}

/// Writes a file whole, or tells why not. The answer is notes for the user.
pub fn write(path: &OsStr, content: &[u8], manner: &Manner) -> Result<Vec<String>, Failure> {
    if begins_as_table(path) {
        return Err(Failure::said(
            format!("{}: this is a table, which would be lost", shown(path)),
            "name another file; a table is written by hand",
        ));
    }
    Ok(replace::create(
        Path::new(path),
        manner.force,
        manner.wait,
        content,
    )?)
}

/// Whether a table is there, which no --force is meant for.
fn begins_as_table(path: &OsStr) -> bool {
    let mut start = Vec::new();
    // A pipe would keep its reader waiting; what it is, `replace` tells.
    let is_file = Path::new(path).is_file();
    let read = |file: File| file.take(64).read_to_end(&mut start).is_ok();
    is_file && File::open(path).is_ok_and(read) && is_table(&start)
}
