//! The matrix of a picture: names, cells, rights with the numbers of the steps, and arrows.

use super::canvas::Canvas;
use super::layout::{layout, Entry, Lane, Layout, ALLEY, DISC, LINE, PAD};
use crate::input::Content;
use crate::machine::{Act, Held};
use crate::story::Done;
use crate::words::Words;
use std::cmp::Ordering;

/// More steps than these have no arrows: they would hide the matrix.
const MOST_ARROWS: usize = 12;

/// What is to be seen besides the steps.
pub enum Aim<'a> {
    /// A right that comes into a cell.
    Leak(Held),
    /// Cells that hold a right already.
    Held(usize, &'a [(usize, usize)]),
    Nothing,
}

/// Draws the matrix with its steps. The second answer is whether names were left out.
pub fn matrix(content: &Content, steps: &[Done], aim: &Aim) -> (Canvas, bool) {
    let layout = layout(content, steps);
    let mut canvas = Canvas::new(layout.width, layout.height);
    grid(&mut canvas, &layout, &content.words);
    marks(&mut canvas, &layout, aim);
    if steps.len() <= MOST_ARROWS {
        arrows(&mut canvas, &layout, steps);
    }
    for row in &layout.rows {
        for column in &layout.columns {
            let Some(cell) = layout.entries.get(&(row.name, column.name)) else {
                continue;
            };
            for (right, entry) in cell {
                let wanted = wanted(aim, (*right, row.name, column.name));
                draw(
                    &mut canvas,
                    entry,
                    &content.words.right_alone(*right),
                    wanted,
                );
            }
        }
    }
    (canvas, layout.part)
}

/// How a right looks that the picture is about.
fn wanted(aim: &Aim, held: Held) -> Option<&'static str> {
    match aim {
        Aim::Leak(leak) if *leak == held => Some("bad"),
        Aim::Held(right, _) if *right == held.0 => Some("good"),
        _ => None,
    }
}

fn grid(canvas: &mut Canvas, layout: &Layout, words: &Words) {
    for (i, row) in layout.rows.iter().enumerate() {
        if i % 2 == 0 {
            canvas.rect((0, row.at), (layout.width, row.size), "stripe");
        }
    }
    for row in layout.rows.iter().filter(|row| row.created.is_some()) {
        canvas.rect((0, row.at), (layout.width, row.size), "new");
    }
    for column in layout.columns.iter().filter(|lane| lane.created.is_some()) {
        canvas.rect((column.at, 0), (column.size, layout.height), "new");
    }
    for column in &layout.columns {
        canvas.line((column.at, PAD / 2), (column.at, layout.height));
        heading(canvas, column, (column.at + ALLEY, LINE), words);
    }
    for row in &layout.rows {
        heading(canvas, row, (PAD, row.at + PAD / 2 + 16), words);
    }
}

fn heading(canvas: &mut Canvas, lane: &Lane, (x, y): (usize, usize), words: &Words) {
    let word = words.name_alone(lane.name);
    match lane.created {
        Some(step) => {
            canvas.count(x + 9, y - 4, "dot", step);
            canvas.text(x + DISC, y, "name", &word);
        }
        None => canvas.text(x, y, "name", &word),
    }
}

/// The cells that the picture is about.
fn marks(canvas: &mut Canvas, layout: &Layout, aim: &Aim) {
    let (cells, class) = match aim {
        Aim::Leak((_, subject, object)) => (vec![(*subject, *object)], "hit"),
        Aim::Held(_, cells) => (cells.to_vec(), "held"),
        Aim::Nothing => return,
    };
    for row in &layout.rows {
        for column in &layout.columns {
            if cells.contains(&(row.name, column.name)) {
                let place = (column.at + 3, row.at + 3);
                canvas.rect(place, (column.size - 6, row.size - 6), class);
            }
        }
    }
}

/// A right in its cell, with the numbers of the steps that delete and enter it.
fn draw(canvas: &mut Canvas, entry: &Entry, word: &str, wanted: Option<&'static str>) {
    let class = match (entry.entered.is_empty(), entry.deleted.is_empty()) {
        _ if wanted.is_some() => wanted.unwrap_or_default(),
        (false, _) => "step",
        (true, false) => "gone",
        (true, true) => "old",
    };
    let mut x = entry.x + 9;
    for step in &entry.deleted {
        canvas.count(x, entry.y - 4, "dot-gone", *step);
        x += DISC;
    }
    for step in &entry.entered {
        let disc = if wanted == Some("bad") {
            "dot-bad"
        } else {
            "dot"
        };
        canvas.count(x, entry.y - 4, disc, *step);
        x += DISC;
    }
    canvas.text(entry.word, entry.y, class, word);
}

/// From what the conditions of a step go by to what the step enters.
fn arrows(canvas: &mut Canvas, layout: &Layout, steps: &[Done]) {
    for (i, done) in steps.iter().enumerate() {
        let class = if i + 1 == steps.len() { "-bad" } else { "" };
        let entered = done.acts.iter().filter_map(|act| match act {
            Act::Enter { held, .. } => entry(layout, *held).map(|to| (*held, to)),
            _ => None,
        });
        for (held, to) in entered {
            for ground in &done.grounds {
                let from = ground.held();
                if let Some(source) = entry(layout, from).filter(|_| from != held) {
                    arrow(canvas, source, to, class);
                }
            }
        }
    }
}

/// Within a column an arrow takes the alley before the words; else it goes from side to side.
fn arrow(canvas: &mut Canvas, from: &Entry, to: &Entry, class: &str) {
    let number = |pixels: usize| pixels as i64;
    let (y, height) = (number(from.y) - 4, number(to.y) - 4);
    let left_of = |entry: &Entry| number(entry.x) - 3;
    let right_of = |entry: &Entry| number(entry.word + entry.width) + 2;
    let across = number(from.x.abs_diff(to.x)) / 3;
    let (start, end, bends) = match from.x.cmp(&to.x) {
        Ordering::Equal => (left_of(from), left_of(to), (-20, 14)),
        Ordering::Less => (right_of(from), left_of(to), (across, across)),
        Ordering::Greater => (left_of(from), right_of(to), (-across, -across)),
    };
    canvas.arrow((start, y), (end, height), bends, class);
}

fn entry(layout: &Layout, (right, subject, object): Held) -> Option<&Entry> {
    let entry = layout.entries.get(&(subject, object))?.get(&right)?;
    (entry.x > 0).then_some(entry)
}
