//! What a press needs, in words: the steps read back are the reference's, each
//! does what is said of it, and the grid read back is the matrix that they lead
//! to, with what rights carry below it; under never the cells told are those that are never held alone.

use super::reading::{Line, Reading};
use super::stories::{single, words_of};
use super::wording::Wording;
use reference::file::{self, Contents};
use reference::filled::Course;
use reference::generate::{chain, large, small};
use reference::lists::{any_cells, bytes};
use reference::machine::{AccessMatrix, Bounded};
use reference::need::{Account, Cell, HELD, NEVER};
use reference::random::Random;
use reference::report::Report;
use std::collections::BTreeMap;
use tugcaphi::house::decode::decode;
use tugcaphi::input::Content;
use tugcaphi::need::{ask, text};
use tugcaphi::terminal::{width, Style};

pub fn run(report: &mut Report, seed: u64) {
    let mut random = Random::new(seed ^ 0x4EED);
    let random = &mut random;
    report.group("what a press needs, in words", 600, |group| {
        let mut seen = [0; 3];
        while group.inputs < 600 {
            let draft = single(random, |random| match random.below(3) {
                0 => large(random).0,
                1 => chain(random).0,
                _ => small(random),
            });
            let wording = Wording::any(random, &draft);
            let asked = Asked::new(random, draft.file(), &wording);
            // The command asks for a cell at least.
            if asked.cells.is_empty() {
                continue;
            }
            let said = asked.held();
            group.input(said.is_ok(), || format!("{said:?} in {}", asked.printed));
            let account = asked.course.answer(&asked.cells);
            seen[match (account.code, account.steps) {
                (NEVER, _) => 0,
                (_, 0) => 1,
                _ => 2,
            }] += 1;
        }
        let few = seen.iter().any(|&count| count < 60);
        group.demand(!few, || {
            format!("never, at the start, after steps: {seen:?}")
        });
    });
}

/// A list of cells, and what the program prints for it.
struct Asked {
    file: Vec<u8>,
    contents: Contents,
    course: Course,
    cells: Vec<Cell>,
    reading: Reading,
    printed: String,
}

impl Asked {
    fn new(random: &mut Random, file: Vec<u8>, wording: &Wording) -> Asked {
        let contents = file::read(&file).expect("an accepted file");
        let course = Course::of(&contents);
        let cells = any_cells(random, &contents, course.last());
        let content = Content {
            house: decode(&file),
            words: words_of(wording),
        };
        let answered = ask(&file, &content.house, bytes(&cells)).expect("steps that can be done");
        Asked {
            reading: Reading::new(&content.words),
            printed: text::lines(&content, &answered, Style::PLAIN, None),
            file,
            contents,
            course,
            cells,
        }
    }

    fn held(&self) -> Result<(), String> {
        let lines: Vec<&str> = self.printed.lines().collect();
        let Account { code, steps, .. } = self.course.answer(&self.cells);
        let word = if code == HELD { "HELD " } else { "NEVER" };
        if !lines[0].starts_with(word) {
            return Err(format!("not {word}"));
        }
        match code {
            HELD => self.way(&lines, steps as usize),
            _ => self.never(&lines[1..]),
        }
    }

    fn way(&self, lines: &[&str], steps: usize) -> Result<(), String> {
        let head = match steps {
            0 => "  at the start, without a step".to_string(),
            1 => "  1 step, one way of perhaps many:".to_string(),
            n => format!("  {n} steps, one way of perhaps many:"),
        };
        is(lines[0].ends_with(&head), || format!("not {head}"))?;
        let told = self.reading.steps(&lines[1..=steps], &self.file)?;
        is(told.trace == self.course.trace[..5 * steps], || {
            format!("other steps: {:?}", told.trace)
        })?;
        let begin = if steps == 0 { "The" } else { "Then the" };
        let mut sentence = Line::new(lines[steps + 1]);
        sentence.expect(&format!("{begin} matrix holds"))?;
        let cells = self.listed(&mut sentence)?;
        is(cells == once(&self.cells), || {
            format!("other cells: {cells:?}")
        })?;
        let after = file::read(&told.file).expect("an accepted file").matrix;
        let rest = &lines[steps + 2..];
        let end = rest.iter().position(|line| line.is_empty());
        let (grid, legend) = rest.split_at(end.unwrap_or(rest.len()));
        self.grid(grid, &after)?;
        let legend = legend.iter().skip(1).map(|line| line.trim_start());
        self.reading.legend(legend, &self.contents.carries)
    }

    /// `own in (Ada, vermilion), read in (Ben, vermilion) and ..`.
    fn listed(&self, line: &mut Line) -> Result<Vec<Cell>, String> {
        let mut cells = Vec::new();
        loop {
            let right = self.reading.find(&self.reading.rights, &line.word()?)?;
            line.expect("in")?;
            let (subject, name) = self.reading.cell(line)?;
            cells.push(Cell {
                right: right as u8,
                subject: subject as u8,
                name: name as u8,
            });
            let ended = line.passes(", each alone") || line.passes("alone");
            if ended || !(line.passes(",") || line.passes("and ")) {
                return Ok(cells);
            }
        }
    }

    fn never(&self, lines: &[&str]) -> Result<(), String> {
        let out: Vec<Cell> = once(&self.cells)
            .into_iter()
            .filter(|&cell| self.course.answer(&[cell]).code == NEVER)
            .collect();
        let said = match lines {
            [] => Vec::new(),
            [line] => {
                let mut line = Line::new(line);
                line.expect("This is already so of")?;
                self.listed(&mut line)?
            }
            _ => return Err("too many lines".to_string()),
        };
        let wanted = if self.cells.len() > 1 {
            out
        } else {
            Vec::new()
        };
        is(said == wanted, || format!("{said:?}, wanted {wanted:?}"))
    }

    /// The grid has a row for each subject, a column for each name, and in each
    /// cell its rights.
    fn grid(&self, lines: &[&str], matrix: &Bounded) -> Result<(), String> {
        let [head, _, rows @ ..] = lines else {
            return Err("no grid".to_string());
        };
        let (edge, names) = columns(head)?;
        let name = |word: &str| self.reading.find(&self.reading.names, word);
        let found: Result<Vec<usize>, String> = names.iter().map(|(word, _)| name(word)).collect();
        let wanted: Vec<usize> = matrix.names().iter().map(|&n| n as usize).collect();
        is(found? == wanted, || "other columns".to_string())?;
        let mut told = BTreeMap::new();
        let mut subjects = Vec::new();
        for row in rows {
            let subject = name(&Line::new(row).word()?)?;
            subjects.push(subject as u64);
            for (place, (_, from)) in names.iter().enumerate() {
                let to = names.get(place + 1).map_or(usize::MAX, |next| next.1);
                let mut cell = between(row, edge + from, edge.saturating_add(to));
                let mut rights = 0;
                while !cell.trim().is_empty() {
                    let mut line = Line::new(&cell);
                    rights |= 1 << self.reading.find(&self.reading.rights, &line.word()?)?;
                    cell = line.rest.to_string();
                }
                told.insert((subject as u64, wanted[place] as u64), rights);
            }
        }
        is(subjects == matrix.subjects(), || "other rows".to_string())?;
        let wrong = told
            .iter()
            .find(|(&(s, o), &rights)| matrix.cell(s, o) != rights);
        is(wrong.is_none(), || format!("the cell {wrong:?}"))?;
        is(
            self.contents.rights as usize == self.reading.rights.len(),
            || "other rights".to_string(),
        )
    }
}

/// Each cell once, in the order of the first.
fn once(cells: &[Cell]) -> Vec<Cell> {
    let mut once = Vec::new();
    for &cell in cells {
        if !once.contains(&cell) {
            once.push(cell);
        }
    }
    once
}

/// Where the grid's edge ends, and its words with where they begin behind it.
fn columns(head: &str) -> Result<(usize, Vec<(String, usize)>), String> {
    let (margin, names) = head.split_once("│ ").ok_or("no edge")?;
    let mut line = Line::new(names);
    let mut words = Vec::new();
    while !line.rest.trim().is_empty() {
        line.rest = line.rest.trim_start();
        let begin = width(names) - width(line.rest);
        words.push((line.word()?, begin));
    }
    Ok((width(margin) + 2, words))
}

/// What stands between two columns of a terminal.
fn between(line: &str, from: usize, to: usize) -> String {
    let mut at = 0;
    let mut text = String::new();
    for character in line.chars() {
        if (from..to).contains(&at) {
            text.push(character);
        }
        at += width(&character.to_string());
    }
    text
}

fn is(good: bool, wrong: impl FnOnce() -> String) -> Result<(), String> {
    match good {
        true => Ok(()),
        false => Err(wrong()),
    }
}
