//! A panel of a picture: a verdict, its matrix and its steps.

use super::canvas::{measure, Canvas};
use super::layout::{DISC, LINE, PAD};
use super::matrix::{matrix, Aim};
use crate::input::Content;
use crate::machine::Act;
use crate::story::{self, Jobs};
use crate::verdict::{text, Leak, Ruling, Verdict};

/// Steps that are listed, from the first and up to the last; the printed answer has all.
const FIRST_LISTED: usize = 30;
const LAST_LISTED: usize = 10;

/// Draws a verdict. `whole`: with the verdict in words and the list of steps, which a page has beside it.
pub fn panel(content: &Content, verdict: &Verdict, whole: bool) -> Canvas {
    let mut canvas = Canvas::new(2 * PAD, PAD);
    if whole {
        head(&mut canvas, content, verdict);
    }
    let (steps, aim) = match &verdict.ruling {
        Ruling::Unsafe(leak) => (leak.steps.as_slice(), Aim::Leak(leak.held)),
        Ruling::Safe(cells) => (&[][..], Aim::Held(usize::from(verdict.right), cells)),
        Ruling::Refused(_) => (&[][..], Aim::Nothing),
    };
    let judged = content.without(verdict.left_out());
    let (drawn, part) = matrix(&judged, steps, &aim);
    canvas.place(PAD, canvas.height, &drawn);
    canvas.height += drawn.height + PAD;
    canvas.widen(drawn.width);
    if part {
        canvas.say("quiet", "only names that take part in the steps are shown");
    }
    if let (Ruling::Unsafe(leak), true) = (&verdict.ruling, whole) {
        list(&mut canvas, content, leak);
    }
    canvas
}

fn head(canvas: &mut Canvas, content: &Content, verdict: &Verdict) {
    let right = content.words.right_alone(usize::from(verdict.right));
    let (class, word) = match verdict.ruling {
        Ruling::Safe(_) => ("good", "SAFE"),
        Ruling::Unsafe(_) => ("bad", "UNSAFE"),
        Ruling::Refused(_) => ("warn", "REFUSED"),
    };
    let y = canvas.height + 16;
    let summary = text::summary(content, verdict);
    let summary = summary.trim_end_matches(':');
    let coloured = format!("head {class}");
    let texts = [
        ("head", right.as_str()),
        (&coloured, word),
        ("quiet", summary),
    ];
    canvas.texts(PAD, y, &texts);
    let wide = measure(&right, 15) + measure(word, 15) + measure(summary, 13);
    canvas.widen(PAD + wide);
    canvas.height = y + PAD;
}

fn list(canvas: &mut Canvas, content: &Content, leak: &Leak) {
    let words = &content.words;
    let all = leak.steps.len();
    canvas.height += PAD / 2;
    for (i, done) in leak.steps.iter().enumerate() {
        if (FIRST_LISTED..all.saturating_sub(LAST_LISTED)).contains(&i) {
            if i == FIRST_LISTED {
                let between = all - FIRST_LISTED - LAST_LISTED;
                canvas.say(
                    "quiet",
                    &format!("{between} steps, which the printed answer has"),
                );
            }
            continue;
        }
        let y = canvas.height + 8;
        canvas.count(PAD + 10, y - 4, disc(leak, i), i + 1);
        let call = story::call(words, &content.house.rules, done.step, Jobs::LeftOut);
        let sentence = story::sentence(words, done);
        canvas.texts(PAD + DISC + 4, y, &[("name", &call), ("", &sentence)]);
        canvas.widen(PAD + DISC + measure(&call, 13) + measure(&sentence, 13));
        canvas.height += LINE;
    }
    canvas.say("bad", &text::outcome(words, leak));
}

/// The disc of a step in the list: as in the matrix.
fn disc(leak: &Leak, step: usize) -> &'static str {
    let deletes = |act: &Act| matches!(act, Act::Delete { .. });
    match leak.steps[step].acts.iter().all(deletes) {
        _ if step + 1 == leak.steps.len() => "dot-bad",
        true => "dot-gone",
        false => "dot",
    }
}

impl Canvas {
    fn widen(&mut self, to: usize) {
        self.width = self.width.max(to + 2 * PAD);
    }

    /// A line of text below what is there.
    fn say(&mut self, class: &str, text: &str) {
        self.text(PAD, self.height + 8, class, text);
        self.widen(PAD + measure(text, 13));
        self.height += LINE;
    }
}

/// A drawing on a card of at least this width.
pub fn framed(inner: &Canvas, width: usize) -> Canvas {
    let width = width.max(inner.width);
    let mut outer = Canvas::new(width + 2, inner.height + 2);
    outer.rect((1, 1), (width, inner.height), "card");
    outer.place(1, 1, inner);
    outer
}
