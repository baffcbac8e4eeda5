//! `need`: can cells be held at the same moment, by which steps, and what the matrix is then.

use super::{about, put_trace, trace, Answer, Command, View, FORCE, GOOD, NAMES, NEVER, REFUSED};
use crate::arguments::Arguments;
use crate::failure::Failure;
use crate::input::Content;
use crate::limits::NEEDED_BYTES;
use crate::need::{self, json, text, Outcome};
use std::ffi::OsString;

pub const COMMAND: Command = Command {
    name: "need",
    usage: "FILE|TABLE RIGHT SUBJECT NAME [RIGHT SUBJECT NAME ..]",
    summary: "can up to 8 cells hold a right each at the same moment, and how",
    about: "What a press needs before it can be set up: each right in the cell of its subject and name, all at the same\n\
            moment. The answer is the proved library's. Held: the steps of one way are told, of perhaps many, and the\n\
            matrix that they lead to. Never: no run of the rules that destroys none of the present names, however\n\
            long, ends with all of them held. The file stays as it is. It takes rules of one step and at most 30\n\
            names, as the judge does; subjects and names that do not exist yet cannot be asked for. Exit status 1 for\n\
            never.",
    least: 2,
    most: usize::MAX,
    options: &[
        NAMES,
        trace("write the steps, 5 bytes each; under never all that could be done"),
        FORCE,
    ],
    run,
};

fn run(arguments: &Arguments, view: &View) -> Result<Answer, Failure> {
    about(arguments, view, |input, content| {
        let list = list(&arguments.plain[1..], content)?;
        let answered = need::ask(&input.file, &content.house, list)?;
        let mut answer = Answer {
            status: match answered.outcome {
                Outcome::Held(_) => GOOD,
                Outcome::Never(_) => NEVER,
                Outcome::Refused(_) => REFUSED,
            },
            text: text::lines(content, &answered, view.style, view.columns).into_bytes(),
            json: vec![("input", input.json())],
            ..Answer::default()
        };
        answer.json.extend(json::fields(content, &answered));
        put_trace(&mut answer, &COMMAND, arguments, &answered.trace);
        Ok(answer)
    })
}

/// The cells that the words say, three bytes each. Whether they are whole, few enough and there, the library says.
fn list(given: &[OsString], content: &Content) -> Result<Vec<u8>, Failure> {
    let byte = |(place, word): (usize, &OsString)| match place % NEEDED_BYTES {
        0 => content.words.right_number(word),
        _ => content.words.name_number(word),
    };
    given.iter().enumerate().map(byte).collect()
}
