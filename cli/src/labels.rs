//! Rights, names, rules and steps for other programs: numbers, with words beside them.

use crate::house::carries::Carries;
use crate::house::{Kind, Matrix, Rule};
use crate::json::Json;
use crate::machine::{Act, Ground, Held};
use crate::story::Done;
use crate::trace::{Given, Step};
use crate::words::Words;

/// The number of something, and its word if a table gives it one.
fn labelled(words: &Words, number: usize, word: Option<&String>) -> Json {
    let word = word.filter(|_| !words.plain);
    Json::Object(vec![
        ("number", number.into()),
        ("word", word.cloned().into()),
    ])
}

pub fn right(words: &Words, right: usize) -> Json {
    labelled(words, right, words.rights.get(right))
}

pub fn name(words: &Words, name: usize) -> Json {
    labelled(words, name, words.names.get(name).and_then(Option::as_ref))
}

pub fn rule(words: &Words, rule: usize) -> Json {
    labelled(words, rule, words.rules.get(rule).map(|words| &words.rule))
}

pub fn cell(words: &Words, (subject, object): (usize, usize)) -> Json {
    Json::Object(vec![
        ("subject", name(words, subject)),
        ("object", name(words, object)),
    ])
}

pub fn held(words: &Words, (held, subject, object): Held) -> Json {
    Json::Object(vec![
        ("right", right(words, held)),
        ("subject", name(words, subject)),
        ("object", name(words, object)),
    ])
}

pub fn kind(kind: Kind) -> Json {
    match kind {
        Kind::Absent => "absent".into(),
        Kind::Object => "object".into(),
        Kind::Subject => "subject".into(),
    }
}

/// The names of a matrix, with their kind.
pub fn names(words: &Words, matrix: &Matrix) -> Json {
    let one = |&number: &usize| {
        Json::Object(vec![
            ("name", name(words, number)),
            ("kind", kind(matrix.kinds[number])),
        ])
    };
    matrix.names().iter().map(one).collect()
}

/// The cells of a matrix that hold a right.
pub fn cells(words: &Words, matrix: &Matrix) -> Json {
    let mut cells = Vec::new();
    for subject in matrix.subjects() {
        for object in matrix.names() {
            let rights = matrix.cell(subject, object);
            if !rights.is_empty() {
                let rights = rights.iter().map(|one| right(words, one));
                cells.push(Json::Object(vec![
                    ("subject", name(words, subject)),
                    ("object", name(words, object)),
                    ("rights", rights.collect()),
                ]));
            }
        }
    }
    Json::List(cells)
}

/// The rights that carry some: what the file says of each, and all the others that this comes to.
pub fn carries(words: &Words, carries: &Carries) -> Json {
    let rights =
        |some: &mut dyn Iterator<Item = usize>| some.map(|one| right(words, one)).collect();
    let one = |number: usize| {
        let said = carries.said(number);
        let fields = vec![
            ("right", right(words, number)),
            ("rights", rights(&mut said.iter())),
            ("all", rights(&mut carries.others(number).into_iter())),
        ];
        (!said.is_empty()).then_some(Json::Object(fields))
    };
    (0..words.rights.len()).filter_map(one).collect()
}

/// A rule and what its blanks get, one by one.
pub fn call(words: &Words, rules: &[Rule], step: Step) -> Vec<(&'static str, Json)> {
    let given = step.given(rules).into_iter();
    let names = given.map(|given| match given {
        Given::Name(given) => name(words, given),
        Given::Job(number) => Json::Object(vec![("job", usize::from(number).into())]),
    });
    vec![
        ("rule", rule(words, usize::from(step.rule))),
        ("names", names.collect()),
    ]
}

pub fn done(words: &Words, rules: &[Rule], done: &Done) -> Json {
    Json::Object(did(words, rules, done))
}

/// A step, the carried rights that it went by if there are some, and what it did.
pub fn did(words: &Words, rules: &[Rule], done: &Done) -> Vec<(&'static str, Json)> {
    let mut fields = call(words, rules, done.step);
    let carried: Vec<Json> = done.carried().map(|one| ground(words, one)).collect();
    if !carried.is_empty() {
        fields.push(("carried", Json::List(carried)));
    }
    let acts = done.acts.iter().map(|one| act(words, one));
    fields.push(("acts", acts.collect()));
    fields
}

/// The right that a condition asks for, its cell, and the right there that carries it.
fn ground(words: &Words, ground: Ground) -> Json {
    let (asked, subject, object) = ground.asked;
    Json::Object(vec![
        ("right", right(words, asked)),
        ("subject", name(words, subject)),
        ("object", name(words, object)),
        ("by", right(words, ground.by)),
    ])
}

pub fn act(words: &Words, act: &Act) -> Json {
    let in_cell = |verb: &str, of: Held, changed: bool| {
        let (right_of, subject, object) = of;
        vec![
            ("act", verb.into()),
            ("right", right(words, right_of)),
            ("subject", name(words, subject)),
            ("object", name(words, object)),
            ("changed", changed.into()),
        ]
    };
    let on_name = |verb: &str, of: usize, its: Kind| {
        vec![
            ("act", verb.into()),
            ("kind", kind(its)),
            ("name", name(words, of)),
        ]
    };
    Json::Object(match act {
        Act::Enter { held, new } => in_cell("enter", *held, *new),
        Act::Delete { held, gone } => in_cell("delete", *held, *gone),
        Act::Create { name, kind } => on_name("create", *name, *kind),
        Act::Destroy { name, kind, lost } => {
            let mut fields = on_name("destroy", *name, *kind);
            fields.push(("lost", lost.iter().map(|&one| held(words, one)).collect()));
            fields
        }
    })
}
