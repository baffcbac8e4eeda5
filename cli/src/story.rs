//! Steps in words: what each one enters or creates, and by which carried right it could. The steps are carried out by the proved library.

use crate::count::{all_of, count};
use crate::house::decode::decode;
use crate::house::{House, Kind, Matrix, Rule};
use crate::library;
use crate::limits::NAMES;
use crate::machine::{ground, perform, Act, Ground, Held};
use crate::trace::{steps, Given, Step};
use crate::words::Words;

/// A step that was done, what its conditions went by, and what it did.
pub struct Done {
    pub step: Step,
    pub grounds: Vec<Ground>,
    pub acts: Vec<Act>,
}

impl Done {
    /// What conditions went by for which another right was there than they ask for.
    pub fn carried(&self) -> impl Iterator<Item = Ground> + '_ {
        let grounds = self.grounds.iter().copied();
        grounds.filter(|ground| ground.carried())
    }
}

/// Carries out a step on the bytes of a file, which say what `house` says, before and after: what it did, or the refusal.
pub fn carry_out(file: &mut [u8], house: &mut House, step: Step) -> Result<Done, u8> {
    match library::run(file, step.rule, step.actuals) {
        0 => {
            let after = decode(file).matrix;
            let grounds = grounds(house, step);
            let acts = acts(house, step, &after);
            house.matrix = after;
            Ok(Done {
                step,
                grounds,
                acts,
            })
        }
        refusal => Err(refusal),
    }
}

/// Carries out the steps of a trace on a copy, one after the other: what each did, and what the house is then. None where
/// one of them is refused.
pub fn carry_out_all(file: &[u8], house: &House, trace: &[u8]) -> Option<(Vec<Done>, House)> {
    let (mut file, mut after) = (file.to_vec(), house.clone());
    let mut done = Vec::new();
    for step in steps(trace) {
        done.push(carry_out(&mut file, &mut after, step).ok()?);
    }
    Some((done, after))
}

/// What the conditions of a rule went by, each once.
fn grounds(before: &House, step: Step) -> Vec<Ground> {
    let names = step.actuals.map(usize::from);
    let mut grounds = Vec::new();
    for condition in &before.rules[usize::from(step.rule)].conditions {
        match ground(before, condition, &names) {
            Ok(ground) if !grounds.contains(&ground) => grounds.push(ground),
            _ => {}
        }
    }
    grounds
}

/// What the operations of a rule did one by one, or, where this does not come to the library's matrix, the difference.
fn acts(before: &House, step: Step, after: &Matrix) -> Vec<Act> {
    let names: Vec<usize> = step.actuals.iter().map(|&name| usize::from(name)).collect();
    let mut matrix = before.matrix.clone();
    let rule = &before.rules[usize::from(step.rule)];
    let operations = rule.steps.iter();
    let acts: Result<Vec<Act>, _> = operations
        .map(|operation| perform(&mut matrix, *operation, &names))
        .collect();
    match acts {
        Ok(acts) if matrix == *after => acts,
        _ => differences(&before.matrix, after),
    }
}

/// What is otherwise in the second matrix.
pub fn differences(before: &Matrix, after: &Matrix) -> Vec<Act> {
    let mut acts = Vec::new();
    for name in 0..NAMES {
        let (old, new) = (before.kinds[name], after.kinds[name]);
        if old != new && old != Kind::Absent {
            let lost = Vec::new();
            acts.push(Act::Destroy {
                name,
                kind: old,
                lost,
            });
        }
        if old != new && new != Kind::Absent {
            acts.push(Act::Create { name, kind: new });
        }
    }
    let cells = (0..NAMES).flat_map(|s| (0..NAMES).map(move |o| (s, o)));
    for (s, o) in cells {
        for right in 0..u16::BITS as usize {
            let held = (right, s, o);
            match (before.cell(s, o).has(right), after.cell(s, o).has(right)) {
                (false, true) => acts.push(Act::Enter { held, new: true }),
                (true, false) => acts.push(Act::Delete { held, gone: true }),
                _ => {}
            }
        }
    }
    acts
}

/// The first of these acts that enters the right into a cell that lacks it.
pub fn leak(acts: &[Act], right: usize) -> Option<Held> {
    acts.iter().find_map(|act| match act {
        Act::Enter { held, new: true } if held.0 == right => Some(*held),
        _ => None,
    })
}

/// Whether the numbers in spare blanks are told. The judge's are all 0, and say nothing.
#[derive(Clone, Copy, PartialEq, Eq)]
pub enum Jobs {
    Told,
    LeftOut,
}

/// A rule with its names: `lend (Ada, Ben, job 117)`.
pub fn call(words: &Words, rules: &[Rule], step: Step, jobs: Jobs) -> String {
    let given = step.given(rules).into_iter();
    let told = given.filter_map(|given| match given {
        Given::Name(name) => Some(words.name(name)),
        Given::Job(number) => (jobs == Jobs::Told).then(|| format!("job {number}")),
    });
    let told: Vec<String> = told.collect();
    format!(
        "{} ({})",
        words.rule(usize::from(step.rule)),
        told.join(", ")
    )
}

/// What an act did, as a clause: `enters read into (Ben, vermilion)`.
pub fn clause(words: &Words, act: &Act) -> String {
    let right_in = |held: &Held| (words.right(held.0), words.cell(held.1, held.2));
    let kind_of = |kind: &Kind| match kind {
        Kind::Subject => "subject",
        _ => "object",
    };
    match act {
        Act::Enter { held, new } => {
            let (right, cell) = right_in(held);
            let already = if *new { "" } else { ", where it was already" };
            format!("enters {right} into {cell}{already}")
        }
        Act::Delete { held, gone } => {
            let (right, cell) = right_in(held);
            let already = if *gone { "" } else { ", where it was not" };
            format!("deletes {right} from {cell}{already}")
        }
        Act::Create { name, kind } => {
            let new = match words.names[*name] {
                Some(_) => "",
                None => ", a new name",
            };
            format!("creates the {} {}{new}", kind_of(kind), words.name(*name))
        }
        Act::Destroy { name, kind, lost } => {
            let with = match lost.len() {
                0 => String::new(),
                n => format!(", and with it {} in its row and column", count(n, "right")),
            };
            format!("destroys the {} {}{with}", kind_of(kind), words.name(*name))
        }
    }
}

/// By which rights conditions held that ask for others: `Ada has approve over vermilion, which carries read`.
pub fn carrying(words: &Words, done: &Done) -> Vec<String> {
    let mut grounds: Vec<(Held, Vec<String>)> = Vec::new();
    for ground in done.carried() {
        let asked = words.right(ground.asked.0);
        match grounds.iter_mut().find(|(held, _)| *held == ground.held()) {
            Some((_, all)) => all.push(asked),
            None => grounds.push((ground.held(), vec![asked])),
        }
    }
    let sentence = |((right, subject, object), asked): (Held, Vec<String>)| {
        let (right, asked) = (words.right(right), all_of(&asked));
        let (subject, object) = (words.name(subject), words.name(object));
        format!("{subject} has {right} over {object}, which carries {asked}")
    };
    grounds.into_iter().map(sentence).collect()
}

/// All that a step did, in one line, and the carried rights that it went by.
pub fn sentence(words: &Words, done: &Done) -> String {
    let clauses: Vec<String> = done.acts.iter().map(|act| clause(words, act)).collect();
    let since = match carrying(words, done).as_slice() {
        [] => String::new(),
        all => format!(", since {}", all.join(", and ")),
    };
    clauses.join("; ") + &since
}
