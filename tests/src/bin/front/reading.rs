//! Printed steps read back into numbers: the words of a line, what they stand
//! for, what each step does on the reference's machine, and by which carried
//! rights it could. And what rights carry, read back.

use reference::carrying::carried;
use reference::file::{self, Contents, Rule, Set};
use reference::machine::{run_file, AccessMatrix};
use std::collections::BTreeMap;
use tugcaphi::story::Jobs;
use tugcaphi::words::Words;

/// Steps that were read and carried out.
pub struct Carried {
    pub trace: Vec<u8>,
    /// The file that they lead to.
    pub file: Vec<u8>,
    /// What the last one did.
    pub last: Option<Effect>,
    pub seen: Seen,
}

/// Of how many steps something was seen.
#[derive(Clone, Copy, Debug, Default)]
pub struct Seen {
    /// Of rules with spare blanks.
    pub spare: u64,
    /// With a condition that held by a right that carries its own.
    pub carried: u64,
}

impl Seen {
    pub fn add(&mut self, other: Seen) {
        self.spare += other.spare;
        self.carried += other.carried;
    }
}

/// A condition that held by another right than its own: the right asked for, the
/// cell, and the right that was there.
#[derive(Clone, Copy, Debug, PartialEq)]
struct Ground {
    asked: usize,
    cell: (usize, usize),
    by: usize,
}

/// What the words stand for.
pub struct Reading {
    pub rights: BTreeMap<String, usize>,
    pub names: BTreeMap<String, usize>,
    pub rules: BTreeMap<String, usize>,
}

impl Reading {
    pub fn new(words: &Words) -> Reading {
        let name = |(i, word): (usize, &Option<String>)| match word {
            Some(word) => (word.clone(), i),
            None => (i.to_string(), i),
        };
        let numbered = |words: Vec<&String>| {
            let words = words.into_iter().enumerate();
            words.map(|(i, word)| (word.clone(), i)).collect()
        };
        Reading {
            rights: numbered(words.rights.iter().collect()),
            names: words.names.iter().enumerate().map(name).collect(),
            rules: numbered(words.rules.iter().map(|rule| &rule.rule).collect()),
        }
    }

    /// Steps without job numbers, numbered from 1: each can be done, and does what
    /// is said of it.
    pub fn steps(&self, lines: &[&str], file: &[u8]) -> Result<Carried, String> {
        let contents = file::read(file).expect("an accepted file");
        let rules = &contents.rules;
        let mut carried = Carried {
            trace: Vec::new(),
            file: file.to_vec(),
            last: None,
            seen: Seen::default(),
        };
        for (i, line) in lines.iter().enumerate() {
            let mut words = Line::new(line.trim_start());
            words.expect(&format!("{}.", i + 1))?;
            let step = self.call(&mut words, rules, Jobs::LeftOut)?;
            let before = carried.file.clone();
            let [rule, a, b, c, d] = step;
            let refusal = run_file(&mut carried.file, rule, [a, b, c, d]);
            let effect = difference(&before, &carried.file);
            let said = self.clause(&mut words)?;
            if refusal != 0 || effect != vec![said.clone()] {
                return Err(format!(
                    "step {}: {refusal}, {effect:?}, said {said:?}",
                    i + 1
                ));
            }
            let grounds = self.grounds(&mut words)?;
            as_there(&contents, &before, step, &grounds)?;
            if !words.rest.is_empty() {
                return Err(format!("step {}: more is told: {}", i + 1, words.rest));
            }
            carried.seen.add(Seen {
                spare: u64::from(!rules[usize::from(rule)].spare.is_empty()),
                carried: u64::from(!grounds.is_empty()),
            });
            carried.trace.extend(step);
            carried.last = Some(said);
        }
        Ok(carried)
    }

    pub fn find(&self, words: &BTreeMap<String, usize>, word: &str) -> Result<usize, String> {
        words
            .get(word)
            .copied()
            .ok_or_else(|| format!("nothing is called {word:?}"))
    }

    /// `lend (Ada, job 117)` as five bytes. Left out, a job number is 0.
    pub fn call(&self, line: &mut Line, rules: &[Rule], jobs: Jobs) -> Result<[u8; 5], String> {
        let number = self.find(&self.rules, &line.word()?)?;
        let rule = &rules[number];
        let mut step = [255; 5];
        step[0] = number as u8;
        let mut between = "(";
        for blank in 0..rule.blanks {
            let spare = rule.spare.contains(&blank);
            if spare && jobs == Jobs::LeftOut {
                step[1 + blank] = 0;
                continue;
            }
            line.expect(between)?;
            between = ",";
            step[1 + blank] = match spare {
                true => {
                    line.expect("job ")?;
                    let number = line.word()?;
                    number.parse().map_err(|_| format!("job {number}"))?
                }
                false => self.find(&self.names, &line.word()?)? as u8,
            };
        }
        line.expect(")")?;
        Ok(step)
    }

    pub fn cell(&self, line: &mut Line) -> Result<(usize, usize), String> {
        line.expect("(")?;
        let subject = self.find(&self.names, &line.word()?)?;
        line.expect(",")?;
        let object = self.find(&self.names, &line.word()?)?;
        line.expect(")")?;
        Ok((subject, object))
    }

    /// `Ada, Ben and Cyd` as numbers.
    pub fn names(&self, line: &mut Line, before_last: &str) -> Result<Vec<u8>, String> {
        let mut names = Vec::new();
        loop {
            names.push(self.find(&self.names, &line.word()?)? as u8);
            if !line.passes(",") && !line.passes(&format!("{before_last} ")) {
                return Ok(names);
            }
        }
    }

    fn clause(&self, line: &mut Line) -> Result<Effect, String> {
        let verb = line.word()?;
        if verb == "creates" {
            line.expect("the")?;
            let kind = if line.word()? == "subject" { 2 } else { 1 };
            let name = self.find(&self.names, &line.word()?)?;
            line.passes(", a new name");
            return Ok(Effect::Kind(name, kind));
        }
        let right = self.find(&self.rights, &line.word()?)?;
        line.expect(if verb == "enters" { "into" } else { "from" })?;
        let (subject, object) = self.cell(line)?;
        match verb.as_str() {
            "enters" => Ok(Effect::Enter(right, subject, object)),
            "deletes" => Ok(Effect::Delete(right, subject, object)),
            _ => Err(format!("no verb: {verb}")),
        }
    }
}

impl Reading {
    /// `, since Ada has approve over Sun, which carries edit and read, and ..`.
    fn grounds(&self, line: &mut Line) -> Result<Vec<Ground>, String> {
        let mut grounds = Vec::new();
        let mut between = ", since ";
        while line.passes(between) {
            between = ", and ";
            let subject = self.find(&self.names, &line.word()?)?;
            line.expect("has ")?;
            let by = self.find(&self.rights, &line.word()?)?;
            line.expect("over ")?;
            let object = self.find(&self.names, &line.word()?)?;
            line.expect(", which carries ")?;
            loop {
                grounds.push(Ground {
                    asked: self.find(&self.rights, &line.word()?)?,
                    cell: (subject, object),
                    by,
                });
                let next = line.rest.starts_with(between);
                if next || !(line.passes(", ") || line.passes("and ")) {
                    break;
                }
            }
        }
        Ok(grounds)
    }

    /// `approve carries edit, read and print`, with its numbers.
    fn carrying(&self, line: &str) -> Result<(usize, Vec<usize>), String> {
        let mut line = Line::new(line);
        let right = self.find(&self.rights, &line.word()?)?;
        line.expect("carries ")?;
        let mut others = Vec::new();
        loop {
            others.push(self.find(&self.rights, &line.word()?)?);
            if line.rest.is_empty() {
                return Ok((right, others));
            }
            if !line.passes(", ") {
                line.expect("and ")?;
            }
        }
    }

    /// Lines that tell what rights carry tell all of it, in order.
    pub fn legend<'a>(
        &self,
        lines: impl IntoIterator<Item = &'a str>,
        carries: &[Set],
    ) -> Result<(), String> {
        let lines = lines.into_iter();
        let told: Result<Vec<_>, String> = lines.map(|line| self.carrying(line)).collect();
        let mut wanted = Vec::new();
        for right in 0..carries.len() {
            let all = carried(carries, right as u8).into_iter().map(usize::from);
            let mut others: Vec<usize> = all.filter(|&other| other != right).collect();
            others.sort_unstable();
            if !others.is_empty() {
                wanted.push((right, others));
            }
        }
        match told? == wanted {
            true => Ok(()),
            false => Err(format!("not what rights carry: {wanted:?}")),
        }
    }

    /// Whether a line tells what a right carries.
    pub fn tells_carrying(&self, line: &str) -> bool {
        self.carrying(line).is_ok()
    }
}

/// What is told of carried rights is so before the step: each condition whose own
/// right is not in its cell is told once, with a right that is there and carries it.
fn as_there(
    contents: &Contents,
    before: &[u8],
    step: [u8; 5],
    told: &[Ground],
) -> Result<(), String> {
    let matrix = file::read(before).expect("an accepted file").matrix;
    let mut wanted: Vec<(usize, (usize, usize))> = Vec::new();
    for condition in &contents.rules[usize::from(step[0])].conditions {
        let name = |blank: usize| usize::from(step[1 + blank]);
        let cell = (name(condition.subject), name(condition.object));
        let asked = (usize::from(condition.right), cell);
        let held = matrix.cell(cell.0 as u64, cell.1 as u64);
        if held >> condition.right & 1 == 0 && !wanted.contains(&asked) {
            wanted.push(asked);
        }
    }
    let mut asked: Vec<_> = told.iter().map(|one| (one.asked, one.cell)).collect();
    asked.sort_unstable();
    wanted.sort_unstable();
    let there = |ground: &Ground| {
        let (subject, object) = ground.cell;
        let held = matrix.cell(subject as u64, object as u64) >> ground.by & 1 == 1;
        let all = carried(&contents.carries, ground.by as u8);
        held && all.contains(&(ground.asked as u8))
    };
    match asked == wanted && told.iter().all(there) {
        true => Ok(()),
        false => Err(format!("told {told:?}, of {wanted:?}")),
    }
}

#[derive(Clone, Debug, PartialEq)]
pub enum Effect {
    Enter(usize, usize, usize),
    Delete(usize, usize, usize),
    /// A name that has another kind.
    Kind(usize, u8),
}

/// What is otherwise in the second file, by its bytes.
fn difference(before: &[u8], after: &[u8]) -> Vec<Effect> {
    let kinds = file::kinds_offset(before);
    let mut effects = Vec::new();
    for name in 0..32 {
        if before[kinds + name] != after[kinds + name] {
            effects.push(Effect::Kind(name, after[kinds + name]));
        }
    }
    for cell in 0..1024 {
        let at = kinds + 32 + 2 * cell;
        let set = |file: &[u8]| u16::from_le_bytes([file[at], file[at + 1]]);
        let (old, new) = (set(before), set(after));
        for right in (0..16).filter(|right| (old ^ new) >> right & 1 == 1) {
            let (subject, object) = (cell / 32, cell % 32);
            effects.push(match new >> right & 1 {
                1 => Effect::Enter(right, subject, object),
                _ => Effect::Delete(right, subject, object),
            });
        }
    }
    effects
}

/// The words of a printed line; quotes and escapes as in a table.
pub struct Line<'a> {
    pub rest: &'a str,
}

impl Line<'_> {
    pub fn new(rest: &str) -> Line<'_> {
        Line { rest }
    }

    pub fn passes(&mut self, text: &str) -> bool {
        self.rest = self.rest.trim_start();
        match self.rest.strip_prefix(text) {
            Some(rest) => {
                self.rest = rest;
                true
            }
            None => false,
        }
    }

    pub fn expect(&mut self, text: &str) -> Result<(), String> {
        match self.passes(text) {
            true => Ok(()),
            false => Err(format!("no {text} at: {}", self.rest)),
        }
    }

    pub fn word(&mut self) -> Result<String, String> {
        self.rest = self.rest.trim_start();
        let Some(quoted) = self.rest.strip_prefix('"') else {
            let end = self
                .rest
                .find([' ', ',', ')', '(', ':'])
                .unwrap_or(self.rest.len());
            let (word, rest) = self.rest.split_at(end);
            self.rest = rest;
            return Ok(word.to_string());
        };
        let mut word = String::new();
        let mut characters = quoted.chars();
        loop {
            match characters.next().ok_or("an open quote")? {
                '"' => break,
                '\\' => word.extend(characters.next()),
                character => word.push(character),
            }
        }
        self.rest = characters.as_str();
        Ok(word)
    }
}
