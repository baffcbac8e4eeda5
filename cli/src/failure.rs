//! What went wrong besides a refusal: usage, files, tables with a mistake. The exit status is 3.

use crate::json::Json;
use crate::replace::Problem;
use crate::table::mistake::Mistake;
use crate::terminal::Style;

#[derive(Debug)]
pub enum Failure {
    /// What is wrong, and what to do.
    Said { message: String, advice: String },
    /// A mistake in a table, with the table's path.
    Table(String, Box<Mistake>),
}

impl Failure {
    pub fn said(message: impl Into<String>, advice: impl Into<String>) -> Failure {
        Failure::Said {
            message: message.into(),
            advice: advice.into(),
        }
    }

    /// As it stands on standard error.
    pub fn shown(&self, style: Style) -> String {
        let error = style.bad("error:");
        match self {
            Failure::Said { message, advice } => {
                format!("{error} {message}\n = {} {advice}\n", style.good("hint:"))
            }
            Failure::Table(path, mistake) => mistake.shown(path, style),
        }
    }

    pub fn json(&self) -> Json {
        match self {
            Failure::Said { message, advice } => Json::Object(vec![
                ("message", message.clone().into()),
                ("hint", advice.clone().into()),
            ]),
            Failure::Table(path, mistake) => mistake_json(path, mistake),
        }
    }
}

fn mistake_json(path: &str, mistake: &Mistake) -> Json {
    Json::Object(vec![
        ("message", mistake.found.clone().into()),
        ("hint", mistake.hint.clone().into()),
        ("code", mistake.code.word().into()),
        ("path", path.into()),
        ("line", mistake.line.into()),
        ("column", mistake.column.into()),
        ("expected", mistake.expected.clone().into()),
        (
            "earlier",
            mistake.earlier.as_ref().map_or(Json::Null, earlier),
        ),
    ])
}

fn earlier((line, what): &(usize, String)) -> Json {
    Json::Object(vec![
        ("line", (*line).into()),
        ("what", what.clone().into()),
    ])
}

/// What the system says went wrong, without its number.
pub fn told(wrong: &std::io::Error) -> String {
    let text = wrong.to_string();
    let end = text.find(" (os error").unwrap_or(text.len());
    text[..end].to_string()
}

impl From<Problem> for Failure {
    fn from(problem: Problem) -> Failure {
        Failure::said(problem.message, problem.advice)
    }
}
