//! Where a file breaks the format: a walk of its own beside the proved reader, in the same order. The number that counts
//! is the proved reader's; a place is told only where this walk comes to the same number.

use super::sections::number;
use crate::count::count;
use crate::limits::{
    BLANKS, CELLS_BYTES, CONDITIONS, CONDITION_BYTES, FILE_BYTES, FIXED_SECTIONS, HEADER_BYTES,
    NAMES, OPERATION_BYTES, PAIR_BYTES, RIGHTS, RULES, RULE_HEAD_BYTES, SET_BYTES, STEPS,
};
use std::ops::Range;

/// A place in a file, what stands there and what may stand there.
#[derive(Clone, Debug, PartialEq, Eq)]
pub struct Place {
    pub section: String,
    pub rule: Option<usize>,
    /// In bytes from the file's start.
    pub offset: usize,
    pub found: String,
    pub allowed: String,
}

/// The first fault of a file: its refusal and its place.
#[derive(Clone, Debug, PartialEq, Eq)]
pub struct Fault {
    pub refusal: u8,
    pub place: Place,
}

/// The place of a refusal that the proved reader gave, where this walk finds the same one.
pub fn of_refusal(file: &[u8], refusal: u8) -> Option<Place> {
    let fault = walk(file).err()?;
    (fault.refusal == refusal).then_some(fault.place)
}

/// The first fault of a file, if it has any.
pub fn walk(file: &[u8]) -> Result<(), Fault> {
    header(file)?;
    let sections = pairs(file)?;
    sizes(file, &sections)?;
    kinds(file, &sections[0])?;
    cells(file, &sections)?;
    carries(file, &sections[2])?;
    for (rule, section) in sections[FIXED_SECTIONS..].iter().enumerate() {
        Rule {
            file,
            rule,
            section,
        }
        .walk()?;
    }
    Ok(())
}

fn fault(
    refusal: u8,
    section: &str,
    offset: usize,
    found: impl Into<String>,
    allowed: impl Into<String>,
) -> Fault {
    Fault {
        refusal,
        place: Place {
            section: section.to_string(),
            rule: None,
            offset,
            found: found.into(),
            allowed: allowed.into(),
        },
    }
}

fn header(file: &[u8]) -> Result<(), Fault> {
    let length = file.len();
    if length < HEADER_BYTES {
        let found = format!("the end of the file, after {}", count(length, "byte"));
        let allowed = format!("a file of {HEADER_BYTES} to {FILE_BYTES} bytes");
        return Err(fault(1, "header", length, found, allowed));
    }
    if length > FILE_BYTES {
        let allowed = format!("the end: a file has at most {FILE_BYTES} bytes");
        let found = format!("one more byte, {}", file[FILE_BYTES]);
        return Err(fault(1, "end of the file", FILE_BYTES, found, allowed));
    }
    let most = FIXED_SECTIONS + RULES;
    if !(1..=RIGHTS).contains(&usize::from(file[0])) {
        let found = format!("{} as the number of rights", file[0]);
        return Err(fault(2, "header", 0, found, format!("1 to {RIGHTS}")));
    }
    if !(FIXED_SECTIONS..=most).contains(&usize::from(file[1])) {
        let found = format!("{} as the number of pairs", file[1]);
        let allowed = format!("{FIXED_SECTIONS} to {most}");
        return Err(fault(3, "header", 1, found, allowed));
    }
    let needed = HEADER_BYTES + PAIR_BYTES * usize::from(file[1]);
    if length < needed {
        let found = format!("the end of the file, after {}", count(length, "byte"));
        let allowed = format!("{needed} bytes or more, for {} pairs", file[1]);
        return Err(fault(1, "pairs", length, found, allowed));
    }
    Ok(())
}

/// What a section is called by its number.
fn section_word(section: usize) -> String {
    match section {
        0 => "kinds".to_string(),
        1 => "cells".to_string(),
        2 => "carries".to_string(),
        rule => format!("rule {}", rule - FIXED_SECTIONS),
    }
}

/// A fault of the pair, offset and length, of a section.
fn pair_fault(refusal: u8, section: usize, at: usize, found: String, allowed: String) -> Fault {
    let word = format!("pair of {}", section_word(section));
    let mut fault = fault(refusal, &word, at, found, allowed);
    fault.place.rule = section.checked_sub(FIXED_SECTIONS);
    fault
}

fn pairs(file: &[u8]) -> Result<Vec<Range<usize>>, Fault> {
    let count = usize::from(file[1]);
    let mut sections = Vec::new();
    let mut end = HEADER_BYTES + PAIR_BYTES * count;
    for section in 0..count {
        let at = HEADER_BYTES + PAIR_BYTES * section;
        let offset = number(&file[at..at + 2]);
        if offset != end {
            let allowed = match section {
                0 => format!("offset {end}, where the pairs end"),
                _ => format!("offset {end}, where the section before ends"),
            };
            return Err(pair_fault(
                4,
                section,
                at,
                format!("offset {offset}"),
                allowed,
            ));
        }
        end = offset + number(&file[at + 2..at + 4]);
        sections.push(offset..end);
    }
    if end != file.len() {
        let at = HEADER_BYTES + PAIR_BYTES * (count - 1) + 2;
        let found = format!("a length by which the last section ends at byte {end}");
        let allowed = format!("an end at byte {}, where the file ends", file.len());
        return Err(pair_fault(4, count - 1, at, found, allowed));
    }
    Ok(sections)
}

fn sizes(file: &[u8], sections: &[Range<usize>]) -> Result<(), Fault> {
    let rights = usize::from(file[0]);
    let wanted = [
        (NAMES, String::new()),
        (CELLS_BYTES, String::new()),
        (
            SET_BYTES * rights,
            format!(", for {}", count(rights, "right")),
        ),
    ];
    for (section, (wanted, why)) in wanted.into_iter().enumerate() {
        let length = sections[section].len();
        if length != wanted {
            let at = HEADER_BYTES + PAIR_BYTES * section + 2;
            let found = format!("length {length}");
            let allowed = format!("length {wanted}{why}");
            return Err(pair_fault(5, section, at, found, allowed));
        }
    }
    Ok(())
}

fn kinds(file: &[u8], section: &Range<usize>) -> Result<(), Fault> {
    for (name, &kind) in file[section.clone()].iter().enumerate() {
        if kind > 2 {
            let found = format!("{kind} as the kind of name {name}");
            let allowed = "0 (absent), 1 (object) or 2 (subject)";
            return Err(fault(6, "kinds", section.start + name, found, allowed));
        }
    }
    Ok(())
}

fn cells(file: &[u8], sections: &[Range<usize>]) -> Result<(), Fault> {
    let kinds = &file[sections[0].clone()];
    let cells = &file[sections[1].clone()];
    for (i, cell) in cells.chunks(SET_BYTES).enumerate() {
        let (subject, object) = (i / NAMES, i % NAMES);
        let allowed = if number(cell) >> file[0] != 0 {
            rights_of(file)
        } else if number(cell) == 0 {
            continue;
        } else if kinds[subject] != 2 {
            format!("0: name {subject} is no subject and has no row")
        } else if kinds[object] == 0 {
            format!("0: name {object} is absent and has no column")
        } else {
            continue;
        };
        let found = format!("{} in the cell ({subject}, {object})", number(cell));
        let at = sections[1].start + SET_BYTES * i;
        return Err(fault(7, "cells", at, found, allowed));
    }
    Ok(())
}

fn carries(file: &[u8], section: &Range<usize>) -> Result<(), Fault> {
    let rights = usize::from(file[0]);
    for (right, set) in file[section.clone()].chunks(SET_BYTES).enumerate() {
        let set = number(set);
        let Some(carried) = (rights..8 * SET_BYTES).find(|carried| set >> carried & 1 == 1) else {
            continue;
        };
        let found = format!("{set} for right {right}, which would carry right {carried}");
        let at = section.start + SET_BYTES * right;
        return Err(fault(44, "carries", at, found, rights_of(file)));
    }
    Ok(())
}

/// What a set of rights may be.
fn rights_of(file: &[u8]) -> String {
    let most = (1usize << file[0]) - 1;
    format!("rights 0 to {}, that is at most {most}", file[0] - 1)
}

/// One rule's section.
struct Rule<'a> {
    file: &'a [u8],
    rule: usize,
    section: &'a Range<usize>,
}

impl Rule<'_> {
    /// A fault at a byte of the section.
    fn fault(&self, refusal: u8, at: usize, found: String, allowed: String) -> Fault {
        let word = section_word(FIXED_SECTIONS + self.rule);
        let mut fault = fault(refusal, &word, self.section.start + at, found, allowed);
        fault.place.rule = Some(self.rule);
        fault
    }

    /// A fault of the section's length.
    fn length_fault(&self, allowed: String) -> Fault {
        let section = FIXED_SECTIONS + self.rule;
        let at = HEADER_BYTES + PAIR_BYTES * section + 2;
        let found = format!("length {}", self.section.len());
        pair_fault(5, section, at, found, allowed)
    }

    fn walk(&self) -> Result<(), Fault> {
        let bytes = &self.file[self.section.clone()];
        if bytes.len() < RULE_HEAD_BYTES {
            let allowed = format!("length {RULE_HEAD_BYTES} or more");
            return Err(self.length_fault(allowed));
        }
        let heads = [
            ("blanks", 1, BLANKS),
            ("conditions", 0, CONDITIONS),
            ("steps", 1, STEPS),
        ];
        for (at, (what, least, most)) in heads.into_iter().enumerate() {
            if !(least..=most).contains(&usize::from(bytes[at])) {
                let allowed = format!("{least} to {most} {what}");
                return Err(self.fault(8, at, format!("{} {what}", bytes[at]), allowed));
            }
        }
        let tests = CONDITION_BYTES * usize::from(bytes[1]);
        let wanted = RULE_HEAD_BYTES + tests + OPERATION_BYTES * usize::from(bytes[2]);
        if bytes.len() != wanted {
            let allowed = format!(
                "length {wanted}, for {} and {}",
                count(usize::from(bytes[1]), "condition"),
                count(usize::from(bytes[2]), "step")
            );
            return Err(self.length_fault(allowed));
        }
        let (tests, steps) = bytes[RULE_HEAD_BYTES..].split_at(tests);
        for (i, test) in tests.chunks(CONDITION_BYTES).enumerate() {
            self.condition(i, test)?;
        }
        for (i, step) in steps.chunks(OPERATION_BYTES).enumerate() {
            self.step(i, RULE_HEAD_BYTES + tests.len() + OPERATION_BYTES * i, step)?;
        }
        Ok(())
    }

    fn condition(&self, i: usize, test: &[u8]) -> Result<(), Fault> {
        let at = RULE_HEAD_BYTES + CONDITION_BYTES * i;
        let of = format!("of condition {i}");
        self.right(at, test[0], &of)?;
        self.blank(at + 1, test[1], &of)?;
        self.blank(at + 2, test[2], &of)
    }

    fn step(&self, i: usize, at: usize, step: &[u8]) -> Result<(), Fault> {
        let of = format!("of step {i}");
        if !(1..=6).contains(&step[0]) {
            let found = format!("{} as the kind {of}", step[0]);
            let allowed = "1 (enter), 2 (delete), 3 (create subject), 4 (create object), 5 (destroy subject) or 6 (destroy object)";
            return Err(self.fault(9, at, found, allowed.to_string()));
        }
        self.blank(at + 2, step[2], &of)?;
        if step[0] <= 2 {
            self.right(at + 1, step[1], &of)?;
            return self.blank(at + 3, step[3], &of);
        }
        for (field, what) in [(1, "right"), (3, "second blank")] {
            if step[field] != 0 {
                let found = format!("{} as the {what} {of}", step[field]);
                let allowed = format!("0: a step that creates or destroys has no {what}");
                return Err(self.fault(9, at + field, found, allowed));
            }
        }
        Ok(())
    }

    fn right(&self, at: usize, right: u8, of: &str) -> Result<(), Fault> {
        if right < self.file[0] {
            return Ok(());
        }
        let allowed = format!("a right, 0 to {}", self.file[0] - 1);
        Err(self.fault(9, at, format!("{right} as the right {of}"), allowed))
    }

    fn blank(&self, at: usize, blank: u8, of: &str) -> Result<(), Fault> {
        let blanks = self.file[self.section.start];
        if blank < blanks {
            return Ok(());
        }
        let allowed = format!("a blank of the rule, 0 to {}", blanks - 1);
        Err(self.fault(9, at, format!("{blank} as a blank {of}"), allowed))
    }
}
