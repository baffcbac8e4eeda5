//! Verdicts as a picture: the matrix, the steps numbered where they enter a right, and what each step goes by.

pub mod canvas;
pub mod layout;
pub mod matrix;
pub mod panel;

use crate::grid::legend;
use crate::input::Content;
use crate::verdict::{left_out, text, Verdict};
use canvas::Canvas;

const MARGIN: usize = 24;

/// One picture with a panel for each verdict.
pub fn svg(title: &str, content: &Content, verdicts: &[Verdict]) -> String {
    let panels: Vec<Canvas> = verdicts
        .iter()
        .map(|verdict| panel::panel(content, verdict, true))
        .collect();
    let wide = panels.iter().map(|panel| panel.width).max().unwrap_or(0);
    let mut page = Canvas::new(2 * MARGIN + wide, MARGIN + 30);
    page.text(MARGIN, MARGIN + 14, "title", title);
    let mut further = legend(&content.house.carries, &content.words, None);
    if let names @ [_, ..] = left_out(verdicts) {
        further.insert(0, text::without(&content.words, names));
    }
    for line in further {
        page.text(MARGIN, page.height + 10, "quiet", &line);
        page.width = page.width.max(2 * MARGIN + canvas::measure(&line, 13));
        page.height += 22;
    }
    for panel in panels {
        let top = page.height + 8;
        let card = panel::framed(&panel, wide);
        page.place(MARGIN, top, &card);
        page.height = top + card.height;
    }
    page.height += MARGIN;
    page.width = page.width.max(2 * MARGIN + canvas::measure(title, 18));
    page.document(title)
}
