//! Verdicts for other programs.

use super::{long_rules, Ruling, Verdict};
use crate::input::Content;
use crate::json::Json;
use crate::labels;
use crate::limits::STEP_BYTES;

/// The verdicts, with the names that were to be left out if there are some.
pub fn fields(
    content: &Content,
    without: &[u8],
    verdicts: &[Verdict],
) -> Vec<(&'static str, Json)> {
    let mut fields = vec![("answer", "judged".into())];
    if !without.is_empty() {
        let names = without.iter();
        let names = names.map(|&name| labels::name(&content.words, usize::from(name)));
        fields.push(("without", names.collect()));
    }
    let verdicts = verdicts.iter().map(|one| verdict(content, one));
    fields.push(("verdicts", verdicts.collect()));
    fields
}

fn verdict(content: &Content, verdict: &Verdict) -> Json {
    let Content { house, words } = content;
    let mut fields = vec![("right", labels::right(words, usize::from(verdict.right)))];
    match &verdict.ruling {
        Ruling::Safe(cells) => {
            let holding = cells.iter().map(|&cell| labels::cell(words, cell));
            fields.push(("verdict", "safe".into()));
            fields.push(("holding", holding.collect()));
            fields.push(("judge_steps", (verdict.trace.len() / STEP_BYTES).into()));
        }
        Ruling::Unsafe(leak) => {
            let steps = leak
                .steps
                .iter()
                .map(|done| labels::done(words, &house.rules, done));
            fields.push(("verdict", "unsafe".into()));
            fields.push(("steps", steps.collect()));
            fields.push(("leak", labels::held(words, leak.held)));
            fields.push(("again", leak.again.into()));
        }
        Ruling::Refused(refusal) => {
            fields.push(("verdict", "refused".into()));
            fields.extend(refused(content, *refusal, verdict.why(content)));
        }
    }
    Json::Object(fields)
}

/// A question that is refused, with what stands in its way.
pub fn refused(
    content: &Content,
    refusal: u8,
    detail: Option<String>,
) -> Vec<(&'static str, Json)> {
    let Content { house, words } = content;
    let mut fields = crate::refused::fields(refusal);
    fields.push(("detail", detail.into()));
    if refusal == 22 {
        let rules = long_rules(house).into_iter();
        let rules = rules.map(|rule| labels::rule(words, rule));
        fields.push(("rules", rules.collect()));
    }
    fields
}
