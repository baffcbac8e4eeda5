//! The record of a step on its way into the log. It is there from before the file gets its new
//! content until the log has the step, and tells the next run what a stopped one left undone.

use std::ffi::OsString;
use std::os::unix::ffi::{OsStrExt, OsStringExt};
use std::path::PathBuf;

#[derive(Debug, PartialEq, Eq)]
pub struct Record {
    pub step: [u8; 5],
    /// The log, and its length before the step.
    pub log: PathBuf,
    pub before: u64,
    /// The file's new content: the step belongs in the log exactly if the file has it.
    pub file: Vec<u8>,
}

const FIRST: &[u8] = b"tugcaphi step 1\n";
const LAST: &[u8] = b"end\n";

impl Record {
    pub fn bytes(&self) -> Vec<u8> {
        let path = self.log.as_os_str().as_bytes();
        let mut bytes = FIRST.to_vec();
        bytes.extend(self.step);
        bytes.extend(self.before.to_le_bytes());
        bytes.extend((path.len() as u64).to_le_bytes());
        bytes.extend((self.file.len() as u64).to_le_bytes());
        bytes.extend(path);
        bytes.extend(&self.file);
        bytes.extend(LAST);
        bytes
    }

    /// None where the bytes are not a whole record: its run was stopped while it wrote them, and so
    /// before it changed the file.
    pub fn read(bytes: &[u8]) -> Option<Record> {
        let mut rest = bytes.strip_prefix(FIRST)?.strip_suffix(LAST)?;
        let mut take = |length: usize| {
            let (taken, behind) = rest.split_at_checked(length)?;
            rest = behind;
            Some(taken)
        };
        let step = take(5)?.try_into().ok()?;
        let mut number = || Some(u64::from_le_bytes(take(8)?.try_into().ok()?));
        let (before, path, file) = (number()?, number()?, number()?);
        let path = take(usize::try_from(path).ok()?)?.to_vec();
        let file = take(usize::try_from(file).ok()?)?.to_vec();
        rest.is_empty().then(|| Record {
            step,
            log: PathBuf::from(OsString::from_vec(path)),
            before,
            file,
        })
    }
}
