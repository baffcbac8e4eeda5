//! Answers to a press for people.

use super::{cells, Answered, Outcome, Way};
use crate::count::{all_of, count};
use crate::grid;
use crate::input::Content;
use crate::machine::Held;
use crate::reasons;
use crate::refusals;
use crate::refused::headline;
use crate::story::Jobs;
use crate::terminal::Style;
use crate::verdict::{obstacle, text::steps};
use crate::words::Words;

/// Steps and grid stand behind so many spaces.
const MARGIN: usize = 2;

/// The answer, with steps and grid where there are some; the grid at most `columns` wide if that is given.
pub fn lines(
    content: &Content,
    answered: &Answered,
    style: Style,
    columns: Option<usize>,
) -> String {
    let wanted = cells(&answered.list);
    match &answered.outcome {
        Outcome::Held(way) => {
            let columns = columns.map(|columns| columns.saturating_sub(MARGIN));
            let carries = &content.house.carries;
            let grid = grid::whole(&way.after, carries, &content.words, columns);
            let head = held(content, &wanted, way, style);
            together(
                head.into_iter()
                    .chain(grid.iter().map(|line| indented(line))),
            )
        }
        Outcome::Never(alone) => together(never(content, &wanted, alone, style)),
        Outcome::Refused(refusal) => refused(content, &answered.list, *refusal, style),
    }
}

fn held(content: &Content, wanted: &[Held], way: &Way, style: Style) -> Vec<String> {
    let word = style.good("HELD ");
    let (how, begin) = match way.steps.len() {
        0 => ("at the start, without a step".to_string(), "The"),
        n => {
            let steps = count(n, "step");
            (format!("{steps}, one way of perhaps many:"), "Then the")
        }
    };
    let cells = listed(&content.words, wanted);
    let steps = steps(content, &way.steps, Jobs::LeftOut);
    let mut lines = vec![format!("{word}  {how}")];
    lines.extend(steps.iter().map(|line| indented(line)));
    lines.push(format!("  {begin} matrix holds {cells}:"));
    lines
}

fn never(content: &Content, wanted: &[Held], alone: &[Held], style: Style) -> Vec<String> {
    let word = style.bad("NEVER");
    let what = match wanted {
        [_] => "it",
        _ => "all of them",
    };
    let mut lines = vec![format!(
        "{word}  no run of the rules that destroys none of the present names ends with {what} held"
    )];
    // Of one cell this is what was said already.
    if wanted.len() > 1 && !alone.is_empty() {
        let each = if alone.len() > 1 { ", each" } else { "" };
        let cells = listed(&content.words, alone);
        lines.push(format!("  This is already so of {cells}{each} alone."));
    }
    lines
}

fn refused(content: &Content, list: &[u8], refusal: u8, style: Style) -> String {
    let mut text = headline(refusal, style);
    if let Some(why) = why(content, list, refusal) {
        text += &format!("  {why}\n");
    }
    text + &format!("  to do    {}\n", refusals::of(refusal).remedy)
}

/// What stands in the way of an answer.
pub fn why(content: &Content, list: &[u8], refusal: u8) -> Option<String> {
    let Content { house, words } = content;
    match refusal {
        41 => reasons::of_list(house, words, list),
        _ => obstacle(house, words, refusal),
    }
}

/// `own in (Ada, vermilion) and read in (Ben, vermilion)`, each cell once.
fn listed(words: &Words, cells: &[Held]) -> String {
    let mut all: Vec<String> = Vec::new();
    for &(right, subject, name) in cells {
        let one = format!("{} in {}", words.right(right), words.cell(subject, name));
        if !all.contains(&one) {
            all.push(one);
        }
    }
    all_of(&all)
}

/// A step, or a line of the grid.
fn indented(line: &str) -> String {
    format!("{}{line}", " ".repeat(MARGIN))
}

fn together(lines: impl IntoIterator<Item = String>) -> String {
    let whole = |line: String| format!("{}\n", line.trim_end());
    lines.into_iter().map(whole).collect()
}
