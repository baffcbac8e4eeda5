//! Why a rule run was refused: which actual, condition or step; and why a list of cells or of names was. The number is the
//! proved library's; the reason is found beside it and is left out where it belongs to another number.

use crate::count::{count, one_of};
use crate::house::{House, Kind, Rule};
use crate::limits::{NAMES, NEEDED_BYTES, NEEDED_CELLS, UNUSED};
use crate::machine::{ground, perform, reachable, Held, Why};
use crate::need::cells;
use crate::table::writer;
use crate::trace::Step;
use crate::words::Words;

/// The reason for a refusal, where it is found.
pub fn reason(house: &House, words: &Words, step: Step, refusal: u8) -> Option<String> {
    let (found, reason) = first(house, words, step)?;
    (found == refusal).then_some(reason)
}

/// The first reason why a rule run cannot be done, and its refusal.
fn first(house: &House, words: &Words, step: Step) -> Option<(u8, String)> {
    let Some(rule) = house.rules.get(usize::from(step.rule)) else {
        return Some((11, no_rule(house, step.rule)));
    };
    let run = Run {
        house,
        rule,
        words,
        step,
    };
    None.or_else(|| run.actuals().map(|reason| (12, reason)))
        .or_else(|| run.conditions().map(|reason| (14, reason)))
        .or_else(|| run.steps().map(|reason| (15, reason)))
}

/// The reason why a list of cells cannot be asked for, where it is found.
pub fn of_list(house: &House, words: &Words, list: &[u8]) -> Option<String> {
    let whole = cells(list);
    match list.len() % NEEDED_BYTES {
        1 => return Some("the last cell has a right and neither subject nor name".to_string()),
        2 => return Some("the last cell has a right and a subject, and no name".to_string()),
        _ if whole.len() > NEEDED_CELLS => {
            let cells = count(whole.len(), "cell");
            return Some(format!("{cells}; a press asks for at most {NEEDED_CELLS}"));
        }
        _ => {}
    }
    whole.iter().find_map(|&cell| not_there(house, words, cell))
}

/// The reason why names cannot be left out, where it is found.
pub fn of_names(house: &House, words: &Words, names: &[u8]) -> Option<String> {
    let wrong = |(place, &name): (usize, &u8)| {
        let number = usize::from(name);
        match house.matrix.kinds.get(number) {
            None => Some(no_name(number)),
            Some(Kind::Absent) => Some(because(Why::Absent(number), house, words)),
            _ if names[..place].contains(&name) => {
                Some(format!("{} is listed twice", words.name(number)))
            }
            _ => None,
        }
    };
    names.iter().enumerate().find_map(wrong)
}

fn no_name(number: usize) -> String {
    format!("{number} is no name; names are 0 to {}", NAMES - 1)
}

/// What of a cell is not there.
fn not_there(house: &House, words: &Words, (right, subject, name): Held) -> Option<String> {
    let rights = count(house.rights, "right");
    if right >= house.rights {
        return Some(format!(
            "there is no right {right}: the file has {rights}, from 0 on"
        ));
    }
    let cell = words.cell(subject, name);
    if let Some(above) = [subject, name].into_iter().find(|&one| one >= NAMES) {
        return Some(format!("the cell {cell}: {}", no_name(above)));
    }
    let why = reachable(&house.matrix, subject, name).err()?;
    Some(format!("the cell {cell}: {}", because(why, house, words)))
}

fn no_rule(house: &House, rule: u8) -> String {
    match house.rules.len() {
        0 => format!("there is no rule {rule}: the file has no rules"),
        1 => format!("there is no rule {rule}: the file has rule 0 alone"),
        n => format!("there is no rule {rule}: the file has rules 0 to {}", n - 1),
    }
}

struct Run<'a> {
    house: &'a House,
    rule: &'a Rule,
    words: &'a Words,
    step: Step,
}

impl Run<'_> {
    fn rule_words(&self) -> (String, &[String]) {
        let number = usize::from(self.step.rule);
        (self.words.rule(number), &self.words.rules[number].blanks)
    }

    fn names(&self) -> Vec<usize> {
        self.step
            .actuals
            .iter()
            .map(|&name| usize::from(name))
            .collect()
    }

    fn name_words(&self) -> Vec<String> {
        self.names()
            .iter()
            .map(|&name| self.words.name(name))
            .collect()
    }

    fn actuals(&self) -> Option<String> {
        let (rule, blanks) = self.rule_words();
        let blanks_are = format!(
            "{rule} has {}: {}",
            count(blanks.len(), "blank"),
            blanks.join(", ")
        );
        let spare = self.rule.spare();
        for (place, &name) in self.step.actuals.iter().enumerate() {
            if spare.contains(&place) {
                continue;
            }
            let used = place < self.rule.blanks;
            if used && name == UNUSED {
                return Some(format!(
                    "the blank {} has no name; {blanks_are}",
                    blanks[place]
                ));
            }
            if used && usize::from(name) >= NAMES {
                return Some(no_name(usize::from(name)));
            }
            if !used && name != UNUSED {
                return Some(format!("there is a name too many; {blanks_are}"));
            }
        }
        None
    }

    fn conditions(&self) -> Option<String> {
        let names = self.names();
        for condition in &self.rule.conditions {
            if let Err(why) = ground(self.house, condition, &names) {
                let text = writer::condition(condition, &self.name_words(), self.words);
                let because = match why {
                    Why::Lacks(right) if self.house.carries.carriers(right).is_empty() => {
                        String::new()
                    }
                    why => format!(": {}", because(why, self.house, self.words)),
                };
                return Some(format!("the condition {text} does not hold{because}"));
            }
        }
        None
    }

    fn steps(&self) -> Option<String> {
        let mut matrix = self.house.matrix.clone();
        for operation in &self.rule.steps {
            if let Err(why) = perform(&mut matrix, *operation, &self.names()) {
                let text = writer::operation(operation, &self.name_words(), self.words);
                return Some(format!(
                    "the step {text} cannot be done: {}",
                    because(why, self.house, self.words)
                ));
            }
        }
        None
    }
}

fn because(why: Why, house: &House, words: &Words) -> String {
    match why {
        Why::NoSubject(name) => format!("{} is no subject", words.name(name)),
        Why::Absent(name) => format!("{} does not exist", words.name(name)),
        Why::There(name) => format!("{} exists already", words.name(name)),
        Why::Subject(name) => format!("{} is a subject", words.name(name)),
        Why::Lacks(right) => {
            let carriers = house.carries.carriers(right).into_iter();
            let carriers: Vec<String> = carriers.map(|one| words.right(one)).collect();
            let right = words.right(right);
            match carriers.as_slice() {
                [] => format!("{right} is not there"),
                [one] => format!("neither {right} nor {one}, which carries it, is there"),
                all => format!(
                    "neither {right} nor {}, which carry it, is there",
                    one_of(all)
                ),
            }
        }
    }
}
