//! The slowest files so far, kept by lines: each file belongs to the line that it was
//! changed from, so that no line drives out the others.

use crate::judging::{Cost, LIMIT};
use crate::mutations::{by_chance, changed, Asked};
use reference::random::Random;
use std::time::Duration;

/// So many files of a line stay.
const KEPT: usize = 6;

#[derive(Clone)]
pub struct Member {
    pub table: Asked,
    pub time: Duration,
    pub steps: u64,
    /// It was known before the search, which has not found it.
    known: bool,
}

pub struct Line {
    pub name: String,
    pub members: Vec<Member>,
    /// The processor time of its candidates, so that each line gets the same.
    spent: Duration,
}

pub struct Candidate {
    pub table: Asked,
    line: usize,
    /// What takes less will not stay.
    pub dull: Duration,
    /// What its line was charged for it, until what it takes is known; none where it is
    /// by chance, which no line pays for.
    charged: Option<Duration>,
    known: bool,
}

pub struct Lines {
    pub lines: Vec<Line>,
    pub tried: u64,
    pub refused: u64,
    pub stopped: u64,
}

impl Line {
    fn dull(&self) -> Duration {
        match self.members.get(KEPT - 1) {
            Some(last) => last.time,
            None => Duration::ZERO,
        }
    }

    /// Of files with the same number of steps, which may be copies, the slowest stays.
    fn insert(&mut self, member: Member) {
        let mut members = self.members.iter_mut();
        match members.find(|other| other.steps == member.steps) {
            Some(other) if other.time >= member.time => return,
            Some(other) => *other = member,
            None => self.members.push(member),
        }
        self.members
            .sort_by_key(|member| std::cmp::Reverse(member.time));
        self.members.truncate(KEPT);
    }
}

impl Lines {
    /// A line for each known file, and the last one for tables by chance.
    pub fn new(names: impl Iterator<Item = String>) -> Lines {
        let line = |name| Line {
            name,
            members: Vec::new(),
            spent: Duration::ZERO,
        };
        Lines {
            lines: names.chain(["chance".to_string()]).map(line).collect(),
            tried: 0,
            refused: 0,
            stopped: 0,
        }
    }

    /// A known file as the first of its line.
    pub fn first(&self, line: usize, table: Asked) -> Candidate {
        Candidate {
            known: true,
            ..self.candidate(table, line, None)
        }
    }

    /// Half of the candidates are tables by chance, the others changed from files that
    /// stayed, of the line that took the least time.
    pub fn next(&mut self, random: &mut Random) -> Candidate {
        let last = self.lines.len() - 1;
        let alive = (0..=last).filter(|&line| !self.lines[line].members.is_empty());
        let line = alive.min_by_key(|&line| self.lines[line].spent);
        match line {
            Some(line) if random.percent(50) => {
                let table = self.child(random, line);
                let charged = self.lines[line].members[0].time;
                self.lines[line].spent += charged;
                self.candidate(table, line, Some(charged))
            }
            _ => self.candidate(by_chance(random), last, None),
        }
    }

    fn candidate(&self, table: Asked, line: usize, charged: Option<Duration>) -> Candidate {
        Candidate {
            table,
            line,
            dull: self.lines[line].dull(),
            charged,
            known: false,
        }
    }

    fn child(&self, random: &mut Random, line: usize) -> Asked {
        let members = &self.lines[line].members;
        // The slower ones more often.
        let place = random.below(members.len()).min(random.below(members.len()));
        let others = &self.lines[random.below(self.lines.len())].members;
        let other = others.first().unwrap_or(&members[0]);
        changed(random, &members[place].table, &other.table)
    }

    pub fn judged(&mut self, candidate: Candidate, cost: Cost) {
        self.tried += 1;
        let (time, steps) = match cost {
            Cost::Refused => (Duration::ZERO, 0),
            Cost::Stopped => (LIMIT, 0),
            Cost::Judged { time, steps } => (time, steps),
        };
        self.refused += u64::from(matches!(cost, Cost::Refused));
        self.stopped += u64::from(matches!(cost, Cost::Stopped));
        let line = &mut self.lines[candidate.line];
        if let Some(charged) = candidate.charged {
            line.spent = line.spent + time - charged;
        }
        if time > candidate.dull {
            line.insert(Member {
                table: candidate.table,
                time,
                steps,
                known: candidate.known,
            });
        }
    }

    /// The slowest that were found, at most so many of a line, with their lines.
    pub fn slowest(&self, of_a_line: usize) -> Vec<(&str, &Member)> {
        let mut all: Vec<(&str, &Member)> = Vec::new();
        for line in &self.lines {
            let found = line.members.iter().filter(|member| !member.known);
            let few = found.take(of_a_line);
            all.extend(few.map(|member| (line.name.as_str(), member)));
        }
        all.sort_by_key(|(_, member)| std::cmp::Reverse(member.time));
        all
    }
}
