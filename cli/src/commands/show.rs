//! `show`: a file or table as text, and its matrix as a grid.

use super::{about, Answer, Command, View, GOOD, NAMES};
use crate::arguments::Arguments;
use crate::failure::Failure;
use crate::grid;
use crate::house::{Condition, Operation};
use crate::input::{Content, Input};
use crate::json::Json;
use crate::labels;
use crate::table::syntax::Verb;
use crate::table::writer;

pub const COMMAND: Command = Command {
    name: "show",
    usage: "FILE|TABLE [--names TABLE]",
    summary: "the table as text, and the matrix as a grid",
    about: "What is printed is a table: made again from it, the file is the same byte for byte. The grid stands in\n\
            its comments, and below it all that rights carry. A file without --names has n0, r0 and rule0 for its\n\
            names, rights and rules; a name that the table of --names does not have is shown by its number.",
    least: 1,
    most: 1,
    options: &[NAMES],
    run,
};

fn run(arguments: &Arguments, view: &View) -> Result<Answer, Failure> {
    about(arguments, view, |input, content| {
        Ok(Answer {
            status: GOOD,
            text: text(content, view).into_bytes(),
            json: json(input, content),
            ..Answer::default()
        })
    })
}

fn text(content: &Content, view: &View) -> String {
    let mut text = writer::write(&content.house, &content.words);
    let mark = view.style.faint("#");
    // The grid stands behind "# ".
    let columns = view.columns.map(|columns| columns.saturating_sub(2));
    text.push_str(&format!("{mark}\n"));
    let Content { house, words } = content;
    for line in grid::whole(&house.matrix, &house.carries, words, columns) {
        text.push_str(format!("{mark} {line}").trim_end());
        text.push('\n');
    }
    text
}

fn json(input: &Input, content: &Content) -> Vec<(&'static str, Json)> {
    let Content { house, words } = content;
    let rights = (0..house.rights).map(|right| labels::right(words, right));
    let rules = (0..house.rules.len()).map(|rule| rule_json(content, rule));
    vec![
        ("input", input.json()),
        ("answer", "shown".into()),
        ("rights", rights.collect()),
        ("carries", labels::carries(words, &house.carries)),
        ("names", labels::names(words, &house.matrix)),
        ("cells", labels::cells(words, &house.matrix)),
        ("rules", rules.collect()),
        ("text", writer::write(house, words).into()),
    ]
}

fn rule_json(content: &Content, number: usize) -> Json {
    let Content { house, words } = content;
    let rule = &house.rules[number];
    let blanks = words.rules[number].blanks.iter();
    let condition = |condition: &Condition| {
        Json::Object(vec![
            ("right", labels::right(words, condition.right)),
            ("subject", condition.subject.into()),
            ("object", condition.object.into()),
        ])
    };
    let step = |operation: &Operation| {
        let mut fields = vec![("operation", Verb::of(*operation).words().into())];
        match *operation {
            Operation::Enter { right, .. } | Operation::Delete { right, .. } => {
                fields.push(("right", labels::right(words, right)));
            }
            _ => {}
        }
        let blanks = operation.blanks().into_iter().map(Json::from);
        fields.push(("blanks", blanks.collect()));
        Json::Object(fields)
    };
    Json::Object(vec![
        ("rule", labels::rule(words, number)),
        (
            "blanks",
            blanks.map(|blank| blank.as_str().into()).collect(),
        ),
        (
            "conditions",
            rule.conditions.iter().map(condition).collect(),
        ),
        ("steps", rule.steps.iter().map(step).collect()),
    ])
}
