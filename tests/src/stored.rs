//! The stored cases of the desk program: `NAME.table` or `NAME.damage`, the text
//! of an input, and `NAME.out`, what is to be printed.

use crate::table::{asked, damaged};
use std::fs;
use std::path::Path;

pub struct Case {
    pub name: String,
    pub input: Vec<u8>,
    pub wanted: Vec<u8>,
}

/// All cases of a folder, by name. A file without its other half is an error,
/// as is any other file.
pub fn cases(folder: impl AsRef<Path>) -> Result<Vec<Case>, String> {
    let folder = folder.as_ref();
    let said = |wrong: std::io::Error| format!("{}: {wrong}", folder.display());
    let mut cases = Vec::new();
    let mut outputs = 0;
    for entry in fs::read_dir(folder).map_err(said)? {
        let path = entry.map_err(said)?.path();
        let ending = path.extension().and_then(|ending| ending.to_str());
        match ending {
            Some("out") => outputs += 1,
            Some(sort @ ("table" | "damage")) => {
                let input = if sort == "table" { asked } else { damaged };
                let about = |wrong: String| format!("{}: {wrong}", path.display());
                let text = fs::read_to_string(&path).map_err(said)?;
                let output = path.with_extension("out");
                cases.push(Case {
                    name: path
                        .file_stem()
                        .unwrap_or_default()
                        .to_string_lossy()
                        .into(),
                    input: input(&text).map_err(about)?,
                    wanted: fs::read(&output)
                        .map_err(|wrong| format!("{}: {wrong}", output.display()))?,
                });
            }
            _ => return Err(format!("{}: no part of a case", path.display())),
        }
    }
    if outputs != cases.len() {
        return Err(format!("{} tables, {outputs} outputs", cases.len()));
    }
    cases.sort_by(|one, other| one.name.cmp(&other.name));
    Ok(cases)
}
