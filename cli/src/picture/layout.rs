//! Where names, cells and rights stand in a picture of the matrix.

use super::canvas::measure;
use crate::house::{Kind, Matrix, Rule};
use crate::input::Content;
use crate::machine::{Act, Held};
use crate::story::Done;
use crate::trace::Given;
use std::collections::BTreeMap;

pub const LINE: usize = 22;
pub const PAD: usize = 12;
/// What a numbered disc takes before the word.
pub const DISC: usize = 23;
/// Room before a column's words, where arrows go up and down.
pub const ALLEY: usize = 24;
/// A matrix of more names is shown with those that take part in the steps.
const MOST_NAMES: usize = 12;

/// A right in a cell: whether it is there at the start, and the steps that enter or delete it.
#[derive(Default)]
pub struct Entry {
    pub start: bool,
    pub entered: Vec<usize>,
    pub deleted: Vec<usize>,
    /// The left end of its discs and words, and their base line.
    pub x: usize,
    pub y: usize,
    /// Where the word begins and how wide it is.
    pub word: usize,
    pub width: usize,
}

/// A row or a column: a name, where it begins and how much it takes.
pub struct Lane {
    pub name: usize,
    pub at: usize,
    pub size: usize,
    /// The step that creates the name.
    pub created: Option<usize>,
}

pub struct Layout {
    pub columns: Vec<Lane>,
    pub rows: Vec<Lane>,
    pub entries: BTreeMap<(usize, usize), BTreeMap<usize, Entry>>,
    pub width: usize,
    pub height: usize,
    /// Whether names are left out.
    pub part: bool,
}

/// The matrix at the start with what the steps do to it.
pub fn layout(content: &Content, steps: &[Done]) -> Layout {
    let created = created(steps);
    let start = &content.house.matrix;
    let kind = |name: usize| {
        created
            .get(&name)
            .map_or(start.kinds[name], |(kind, _)| *kind)
    };
    let mut names = start.names();
    names.extend(created.keys().filter(|name| !start.names().contains(name)));
    names.sort_unstable();
    let all = names.len();
    if all > MOST_NAMES && !steps.is_empty() {
        let taking_part = taking_part(&content.house.rules, steps);
        names.retain(|name| taking_part.contains(name));
    }
    let subjects: Vec<usize> = names
        .iter()
        .copied()
        .filter(|&name| kind(name) == Kind::Subject)
        .collect();
    let mut layout = Layout {
        columns: Vec::new(),
        rows: Vec::new(),
        entries: entries(start, steps),
        width: 0,
        height: 0,
        part: names.len() < all,
    };
    layout.place_columns(content, &subjects, &names, &created);
    layout.place_rows(&subjects, &names, &created);
    layout.place_entries();
    layout
}

type Created = BTreeMap<usize, (Kind, usize)>;

/// The names that steps create, with kind and step.
fn created(steps: &[Done]) -> Created {
    let mut created = BTreeMap::new();
    for (step, done) in steps.iter().enumerate() {
        for act in &done.acts {
            if let Act::Create { name, kind } = act {
                created.insert(*name, (*kind, step + 1));
            }
        }
    }
    created
}

/// The names in the blanks that conditions and steps name.
fn taking_part(rules: &[Rule], steps: &[Done]) -> Vec<usize> {
    let given = steps.iter().flat_map(|done| done.step.given(rules));
    let names = given.filter_map(|given| match given {
        Given::Name(name) => Some(name),
        Given::Job(_) => None,
    });
    names.collect()
}

/// The rights of the start and those that steps enter or delete, by cell.
fn entries(start: &Matrix, steps: &[Done]) -> BTreeMap<(usize, usize), BTreeMap<usize, Entry>> {
    let mut entries: BTreeMap<(usize, usize), BTreeMap<usize, Entry>> = BTreeMap::new();
    let mut entry = |(right, subject, object): Held, change: &dyn Fn(&mut Entry)| {
        let cell = entries.entry((subject, object)).or_default();
        change(cell.entry(right).or_default());
    };
    for subject in start.subjects() {
        for object in start.names() {
            for right in start.cell(subject, object).iter() {
                entry((right, subject, object), &|entry| entry.start = true);
            }
        }
    }
    for (step, done) in steps.iter().enumerate() {
        for act in &done.acts {
            match act {
                Act::Enter { held, .. } => entry(*held, &|entry| entry.entered.push(step + 1)),
                Act::Delete { held, .. } => entry(*held, &|entry| entry.deleted.push(step + 1)),
                _ => {}
            }
        }
    }
    entries
}

impl Entry {
    fn discs(&self) -> usize {
        self.entered.len() + self.deleted.len()
    }
}

impl Layout {
    fn place_columns(
        &mut self,
        content: &Content,
        subjects: &[usize],
        names: &[usize],
        created: &Created,
    ) {
        for cell in self.entries.values_mut() {
            for (right, entry) in cell {
                entry.width = measure(&content.words.right_alone(*right), 13);
            }
        }
        let head = |name: usize| {
            let disc = if created.contains_key(&name) { DISC } else { 0 };
            measure(&content.words.name_alone(name), 13) + disc
        };
        let margin = subjects.iter().map(|&name| head(name)).max().unwrap_or(0);
        let mut at = margin + 2 * PAD;
        for &name in names {
            let cells = subjects
                .iter()
                .filter_map(|&s| self.entries.get(&(s, name)));
            let entries: Vec<&Entry> = cells.flat_map(|cell| cell.values()).collect();
            let discs = entries.iter().map(|entry| entry.discs()).max().unwrap_or(0);
            let wide = entries.iter().map(|entry| entry.width).max().unwrap_or(0);
            let size = head(name).max(DISC * discs + wide).max(30) + ALLEY + PAD;
            let created = created.get(&name).map(|(_, step)| *step);
            self.columns.push(Lane {
                name,
                at,
                size,
                created,
            });
            at += size;
        }
        self.width = at;
    }

    fn place_rows(&mut self, subjects: &[usize], names: &[usize], created: &Created) {
        let mut at = LINE + PAD;
        for &name in subjects {
            let cells = names.iter().filter_map(|&o| self.entries.get(&(name, o)));
            let most = cells.map(BTreeMap::len).max().unwrap_or(0).max(1);
            let size = LINE * most + PAD;
            let created = created.get(&name).map(|(_, step)| *step);
            self.rows.push(Lane {
                name,
                at,
                size,
                created,
            });
            at += size;
        }
        self.height = at;
    }

    fn place_entries(&mut self) {
        for row in &self.rows {
            for column in &self.columns {
                let Some(cell) = self.entries.get_mut(&(row.name, column.name)) else {
                    continue;
                };
                for (line, entry) in cell.values_mut().enumerate() {
                    entry.x = column.at + ALLEY;
                    entry.word = entry.x + DISC * entry.discs();
                    entry.y = row.at + PAD / 2 + LINE * line + 16;
                }
            }
        }
    }
}
