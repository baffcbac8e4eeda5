//! `replay`: a trace carried out on a copy, and where it leaks.

use super::{Answer, Command, View, GOOD, LEAK, NAMES, REFUSED};
use crate::arguments::Arguments;
use crate::count::count;
use crate::failure::Failure;
use crate::house::Rule;
use crate::input::{self, Content};
use crate::json::Json;
use crate::library::{self, Replay};
use crate::limits::STEP_BYTES;
use crate::reasons;
use crate::story::{self, carry_out, leak, Done, Jobs};
use crate::terminal::{padded, width, Style};
use crate::trace::{self, Step};
use crate::verdict::text;
use crate::words::Words;
use crate::{labels, refusals, refused};

pub const COMMAND: Command = Command {
    name: "replay",
    usage: "FILE|TABLE TRACE [RIGHT]",
    summary: "a trace replayed: where it leaks, and what each step does",
    about: "TRACE has 5 bytes a step, as judge --trace and run --log write it, or the lines that the desk program\n\
            prints. Of the right, or of every right, it is told whether the trace leaks it and at which step, or which\n\
            step is refused first. Steps are numbered from 1 here, from 0 in --json. The file stays as it is.",
    least: 2,
    most: 3,
    options: &[NAMES],
    run,
};

fn run(arguments: &Arguments, view: &View) -> Result<Answer, Failure> {
    let (path, trace) = (&arguments.plain[0], &arguments.plain[1]);
    let input = input::read(path, arguments.value("--names"))?;
    let trace = trace::read(input::whole(trace)?, &input::shown(trace))?;
    let content = match &input.content {
        Ok(content) => content,
        Err(refusal) => return Ok(super::refused(&input, *refusal, view)),
    };
    let rights: Vec<u8> = match arguments.plain.get(2) {
        Some(right) => vec![content.words.right_number(right)?],
        None => (0..content.house.rights as u8).collect(),
    };
    let replays: Vec<(u8, Replay)> = rights
        .iter()
        .map(|&right| (right, library::replay(&input.file, &trace, right)))
        .collect();
    let told = Told::of(&input.file, &trace, content);
    let mut answer = Answer {
        status: replays.iter().map(status).max().unwrap_or(GOOD),
        ..Answer::default()
    };
    // A log may have a million steps, and one of the two is enough.
    if arguments.has("--json") {
        let answers = replays.iter().map(|one| told.replay_json(*one));
        answer.json = vec![
            ("input", input.json()),
            ("answer", "replayed".into()),
            ("replays", answers.collect()),
            ("steps", told.steps_json()),
        ];
    } else {
        answer.text = told.text(&replays, view.style).into_bytes();
    }
    Ok(answer)
}

fn status((_, replay): &(u8, Replay)) -> u8 {
    match replay {
        Replay::NoLeak => GOOD,
        Replay::Leak(_) => LEAK,
        Replay::Refused { .. } => REFUSED,
    }
}

/// The steps of a trace as far as they can be done, and why the next one cannot.
struct Told<'a> {
    content: &'a Content,
    bytes: usize,
    done: Vec<Done>,
    stopped: Option<(Step, u8, Option<String>)>,
}

impl Told<'_> {
    fn of<'a>(file: &[u8], trace: &[u8], content: &'a Content) -> Told<'a> {
        let words = &content.words;
        let mut file = file.to_vec();
        let mut house = content.house.clone();
        let mut told = Told {
            content,
            bytes: trace.len(),
            done: Vec::new(),
            stopped: None,
        };
        if !trace.len().is_multiple_of(STEP_BYTES) {
            return told;
        }
        for step in trace::steps(trace) {
            match carry_out(&mut file, &mut house, step) {
                Ok(done) => told.done.push(done),
                Err(refusal) => {
                    let reason = reasons::reason(&house, words, step, refusal);
                    told.stopped = Some((step, refusal, reason));
                    break;
                }
            }
        }
        told
    }

    fn text(&self, replays: &[(u8, Replay)], style: Style) -> String {
        let mut text = match self.bytes % STEP_BYTES {
            0 => format!("{}\n", count(self.bytes / STEP_BYTES, "step")),
            _ => format!(
                "{}, which is no whole number of steps\n",
                count(self.bytes, "byte")
            ),
        };
        for line in text::steps(self.content, &self.done, Jobs::Told) {
            text += &format!("  {line}\n");
        }
        if let Some((step, refusal, reason)) = &self.stopped {
            let call = story::call(self.words(), self.rules(), *step, Jobs::Told);
            let reason = reason.as_deref().unwrap_or(refusals::of(*refusal).meaning);
            let refused = style.warn(&format!("REFUSED {refusal}"));
            text += &format!("  {}. {call}  {refused}: {reason}\n", self.done.len() + 1);
        }
        let rights: Vec<String> = replays
            .iter()
            .map(|(right, _)| self.words().right(usize::from(*right)))
            .collect();
        let margin = rights.iter().map(|right| width(right)).max().unwrap_or(0);
        for ((right, replay), word) in replays.iter().zip(&rights) {
            let word = style.strong(&padded(word, margin));
            text += &format!("{word}  {}\n", self.sentence(*right, *replay, style));
        }
        text
    }

    fn sentence(&self, right: u8, replay: Replay, style: Style) -> String {
        match replay {
            Replay::NoLeak => style.good("NO LEAK"),
            Replay::Leak(step) => {
                let into = match self.leak(right, step) {
                    Some((_, subject, object)) => {
                        format!(", into {}", self.words().cell(subject, object))
                    }
                    None => String::new(),
                };
                format!("{} at step {}{into}", style.bad("LEAK"), step + 1)
            }
            Replay::Refused { by, step } => {
                let meaning = refusals::of(by).meaning;
                let at = match by {
                    21 | 31 => String::new(),
                    _ => format!(" at step {}", step + 1),
                };
                format!("{}{at}: {meaning}", style.warn(&format!("REFUSED {by}")))
            }
        }
    }

    fn words(&self) -> &Words {
        &self.content.words
    }

    fn rules(&self) -> &[Rule] {
        &self.content.house.rules
    }

    /// The cell that a right leaks into at a step.
    fn leak(&self, right: u8, step: u64) -> Option<(usize, usize, usize)> {
        let done = self.done.get(usize::try_from(step).ok()?)?;
        leak(&done.acts, usize::from(right))
    }

    fn replay_json(&self, (right, replay): (u8, Replay)) -> Json {
        let mut fields = vec![("right", labels::right(self.words(), usize::from(right)))];
        match replay {
            Replay::NoLeak => fields.push(("replay", "no leak".into())),
            Replay::Leak(step) => {
                let leak = self.leak(right, step);
                fields.push(("replay", "leak".into()));
                fields.push(("step", Json::Number(step)));
                fields.push((
                    "leak",
                    leak.map_or(Json::Null, |held| labels::held(self.words(), held)),
                ));
            }
            Replay::Refused { by, step } => {
                fields.push(("replay", "refused".into()));
                fields.push(("step", Json::Number(step)));
                fields.extend(refused::fields(by));
            }
        }
        Json::Object(fields)
    }

    fn steps_json(&self) -> Json {
        let mut steps: Vec<Json> = self
            .done
            .iter()
            .map(|done| labels::done(self.words(), self.rules(), done))
            .collect();
        if let Some((step, refusal, reason)) = &self.stopped {
            let mut fields = labels::call(self.words(), self.rules(), *step);
            fields.push(("refusal", usize::from(*refusal).into()));
            fields.push(("reason", reason.clone().into()));
            steps.push(Json::Object(fields));
        }
        Json::List(steps)
    }
}
