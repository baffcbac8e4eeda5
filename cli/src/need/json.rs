//! Answers to a press for other programs.

use super::{cells, text, Answered, Outcome, Way};
use crate::input::Content;
use crate::json::Json;
use crate::labels;
use crate::limits::STEP_BYTES;
use crate::verdict::json::refused;

pub fn fields(content: &Content, answered: &Answered) -> Vec<(&'static str, Json)> {
    let words = &content.words;
    let wanted = cells(&answered.list).into_iter();
    let wanted = wanted.map(|cell| labels::held(words, cell)).collect();
    let (answer, rest) = match &answered.outcome {
        Outcome::Held(way) => ("held", held(content, way)),
        Outcome::Never(alone) => {
            let alone = alone.iter().map(|&cell| labels::held(words, cell));
            let steps = answered.trace.len() / STEP_BYTES;
            let fields = vec![("alone", alone.collect()), ("judge_steps", steps.into())];
            ("never", fields)
        }
        Outcome::Refused(refusal) => {
            let why = text::why(content, &answered.list, *refusal);
            ("refused", refused(content, *refusal, why))
        }
    };
    let mut fields = vec![("answer", answer.into()), ("wanted", wanted)];
    fields.extend(rest);
    fields
}

fn held(content: &Content, way: &Way) -> Vec<(&'static str, Json)> {
    let Content { house, words } = content;
    let steps = way.steps.iter();
    let steps = steps.map(|done| labels::done(words, &house.rules, done));
    let after = vec![
        ("names", labels::names(words, &way.after)),
        ("cells", labels::cells(words, &way.after)),
    ];
    vec![("steps", steps.collect()), ("after", Json::Object(after))]
}
