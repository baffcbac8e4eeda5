//! The judge's question as a logic program for gringo and clingo. It has the
//! atom `leak` exactly if the right leaks.
//!
//! The program has one least model: the rounds' last state, with one new
//! subject and one new object for all the names that can be created.

use reference::file::{Condition, Contents, Rule, Step};
use reference::machine::AccessMatrix;
use std::fmt::Write;

const BLANKS: [&str; 4] = ["A", "B", "C", "D"];

/// A condition as a literal: the right is in the cell, or one that carries it.
fn met(test: &Condition) -> String {
    let by_itself = test.carriers == 1 << test.right;
    let has = if by_itself { "has" } else { "meets" };
    let (s, o) = (BLANKS[test.subject], BLANKS[test.object]);
    format!("{has}({},{s},{o})", test.right)
}

/// The conditions of a rule as literals; of a spare blank nothing is asked.
fn body(rule: &Rule) -> Vec<String> {
    rule.conditions.iter().map(met).collect()
}

/// The same with the right gone from the cell of two blanks: each way to meet
/// them. Where the right carries what a condition asks for, that stands in another
/// cell, or another right in this one carries it too.
fn bodies_without(rule: &Rule, right: u8, cell: (usize, usize)) -> Vec<Vec<String>> {
    let mut bodies = vec![Vec::new()];
    let (subject, object) = (BLANKS[cell.0], BLANKS[cell.1]);
    for test in &rule.conditions {
        let (s, o) = (BLANKS[test.subject], BLANKS[test.object]);
        let mut ways = vec![vec![met(test)]];
        if test.carriers >> right & 1 == 1 {
            ways[0].push(format!("({s},{o}) != ({subject},{object})"));
            let same = format!("({s},{o}) = ({subject},{object})");
            if test.carriers != 1 << right {
                ways.push(vec![format!("stays({},{s},{o})", test.right), same]);
            }
        }
        let longer = |body: &Vec<String>| {
            let body = body.clone();
            let with = move |way: &Vec<String>| [body.clone(), way.clone()].concat();
            ways.iter().map(with).collect::<Vec<_>>()
        };
        bodies = bodies.iter().flat_map(longer).collect();
    }
    bodies
}

/// What rights carry, closed by the program itself; where none carries another,
/// nothing.
fn carrying(text: &mut String, contents: &Contents, right: u8) {
    if contents.carries.iter().all(|set| *set == 0) {
        return;
    }
    for (one, set) in contents.carries.iter().enumerate() {
        writeln!(text, "carries({one},{one}).").unwrap();
        for other in (0..contents.rights).filter(|other| set >> other & 1 == 1) {
            writeln!(text, "link({one},{other}).").unwrap();
        }
    }
    *text += "carries(R,Q) :- link(R,J), carries(J,Q).\n";
    *text += "meets(Q,S,O) :- carries(R,Q), has(R,S,O).\n";
    writeln!(
        text,
        "stays(Q,S,O) :- carries(R,Q), has(R,S,O), R != {right}."
    )
    .unwrap();
}

fn clause(text: &mut String, head: &str, literals: &[String]) {
    if literals.is_empty() {
        writeln!(text, "{head}.").unwrap();
    } else {
        writeln!(text, "{head} :- {}.", literals.join(", ")).unwrap();
    }
}

pub fn program(contents: &Contents, right: u8) -> String {
    let mut text = String::from("#defined exists/1.\n#defined subject/1.\n");
    text += "#defined start/3.\n#defined gone/2.\n#defined again/2.\n#defined link/2.\n";
    let matrix = &contents.matrix;
    for name in matrix.names() {
        writeln!(text, "exists({name}).").unwrap();
    }
    for subject in matrix.subjects() {
        writeln!(text, "subject({subject}).").unwrap();
        for object in matrix.names() {
            for held in 0..contents.rights {
                if matrix.cell(subject, object) >> held & 1 == 1 {
                    writeln!(text, "start({held},{subject},{object}).").unwrap();
                }
            }
        }
    }
    text += "has(R,S,O) :- start(R,S,O).\n";
    carrying(&mut text, contents, right);
    for rule in &contents.rules {
        match rule.steps[0] {
            Step::Enter {
                right: entered,
                subject,
                object,
            } => {
                let (s, o) = (BLANKS[subject], BLANKS[object]);
                let mut literals = body(rule);
                literals.extend([format!("subject({s})"), format!("exists({o})")]);
                clause(&mut text, &format!("has({entered},{s},{o})"), &literals);
                if entered == right {
                    for body in bodies_without(rule, right, (subject, object)) {
                        let start = vec![format!("start({right},{s},{o})")];
                        let literals = [start, body].concat();
                        clause(&mut text, &format!("again({s},{o})"), &literals);
                    }
                }
            }
            Step::Delete {
                right: deleted,
                subject,
                object,
            } if deleted == right => {
                let (s, o) = (BLANKS[subject], BLANKS[object]);
                let mut literals = vec![format!("start({right},{s},{o})")];
                literals.extend(body(rule));
                clause(&mut text, &format!("gone({s},{o})"), &literals);
            }
            Step::CreateSubject(blank) | Step::CreateObject(blank) => {
                // A condition on a name that is absent never holds.
                let asked = |blank| {
                    let mut tests = rule.conditions.iter();
                    tests.any(|test| test.subject == blank || test.object == blank)
                };
                if asked(blank) {
                    continue;
                }
                let literals = body(rule);
                if matches!(rule.steps[0], Step::CreateSubject(_)) {
                    clause(&mut text, "exists(newsubject)", &literals);
                    clause(&mut text, "subject(newsubject)", &literals);
                } else {
                    clause(&mut text, "exists(newobject)", &literals);
                }
            }
            _ => {}
        }
    }
    writeln!(text, "leak :- has({right},S,O), not start({right},S,O).").unwrap();
    text += "leak :- gone(S,O), again(S,O).\n#show leak/0.\n";
    text
}
