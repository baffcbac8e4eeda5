//! A refusal in words: its number, its meaning, where it is and what to do.

use crate::house::place::{self, Place};
use crate::house::sections::number;
use crate::json::Json;
use crate::limits::{HEADER_BYTES, NAMES, PAIR_BYTES};
use crate::refusals;
use crate::table;
use crate::terminal::Style;

/// A file that the proved reader refuses, and where the fault is, if that is known.
pub struct BadFile {
    pub refusal: u8,
    pub place: Option<Place>,
    pub hint: Option<String>,
}

impl BadFile {
    pub fn new(file: &[u8], refusal: u8) -> BadFile {
        BadFile {
            refusal,
            place: place::of_refusal(file, refusal),
            hint: looks_like_text(file).or_else(|| of_before(file, refusal)),
        }
    }

    /// The refusal, and below it file and place.
    pub fn lines(&self, path: &str, style: Style) -> String {
        headline(self.refusal, style) + &format!("  file     {path}\n") + &self.details()
    }

    /// The refusal in a line that begins with the file.
    pub fn listed(&self, path: &str, style: Style) -> String {
        format!(
            "{path}: {}{}",
            headline(self.refusal, style),
            self.details()
        )
    }

    fn details(&self) -> String {
        let mut text = String::new();
        if let Some(place) = &self.place {
            text += &format!("  place    byte {}, {}\n", place.offset, place.section);
            text += &format!("  found    {}\n", place.found);
            text += &format!("  allowed  {}\n", place.allowed);
        }
        let remedy = refusals::of(self.refusal).remedy;
        let hint = self.hint.as_deref().unwrap_or(remedy);
        text + &format!("  to do    {hint}\n")
    }

    pub fn json(&self) -> Vec<(&'static str, Json)> {
        let mut fields = fields(self.refusal);
        fields.push(("place", self.place.as_ref().map_or(Json::Null, place_json)));
        fields.push(("hint", self.hint.clone().into()));
        fields
    }
}

/// `REFUSED 14: a condition of the rule is not met`, as a line.
pub fn headline(refusal: u8, style: Style) -> String {
    let number = style.warn(&format!("REFUSED {refusal}"));
    format!("{number}: {}\n", refusals::of(refusal).meaning)
}

/// What other programs get of every refusal.
pub fn fields(refusal: u8) -> Vec<(&'static str, Json)> {
    let known = refusals::of(refusal);
    vec![
        ("refusal", usize::from(refusal).into()),
        ("meaning", known.meaning.into()),
        ("cause", known.cause.into()),
        ("remedy", known.remedy.into()),
    ]
}

fn place_json(place: &Place) -> Json {
    Json::Object(vec![
        ("section", place.section.clone().into()),
        ("rule", place.rule.map_or(Json::Null, Json::from)),
        ("offset", place.offset.into()),
        ("found", place.found.clone().into()),
        ("allowed", place.allowed.clone().into()),
    ])
}

/// A file whose cells have one byte each is of the format before two, which had at most eight rights.
fn of_before(file: &[u8], refusal: u8) -> Option<String> {
    let length = HEADER_BYTES + PAIR_BYTES + 2;
    let cells = refusal == 5 && number(&file[length..length + 2]) == NAMES * NAMES;
    cells.then(|| {
        "this is a file of the earlier format, whose cells have one byte: make it again from its \
         table, or from what tugcaphi show of the earlier version prints"
            .to_string()
    })
}

/// A text given for a house file is most likely a table without its first line.
fn looks_like_text(file: &[u8]) -> Option<String> {
    let text = std::str::from_utf8(file).ok()?;
    let readable = |c: char| !c.is_control() || "\t\r\n".contains(c);
    let is_text = text.len() > 1 && text.chars().all(readable) && !table::is_table(file);
    is_text.then(|| "this looks like a text: the first line of a table is `table 1`".to_string())
}
