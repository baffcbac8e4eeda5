//! The words for rights, names and rules, and how they are written.

use crate::count::one_of;
use crate::failure::Failure;
use crate::house::House;
use crate::limits::NAMES;
use crate::table::word;
use std::ffi::OsStr;

#[derive(Clone, Debug, PartialEq, Eq)]
pub struct RuleWords {
    pub rule: String,
    pub blanks: Vec<String>,
}

/// The words of a table. Every right and rule has one; a name may have none.
#[derive(Clone, Debug, PartialEq, Eq)]
pub struct Words {
    /// Whether they are made up for a file that comes without a table.
    pub plain: bool,
    pub rights: Vec<String>,
    pub names: [Option<String>; NAMES],
    pub rules: Vec<RuleWords>,
}

impl Words {
    /// Words for a file that comes without a table: n0, r0 and rule0, by their numbers.
    pub fn plain(house: &House) -> Words {
        let rule = |(number, rule): (usize, &crate::house::Rule)| RuleWords {
            rule: format!("rule{number}"),
            blanks: ('a'..).take(rule.blanks).map(String::from).collect(),
        };
        Words {
            plain: true,
            rights: (0..house.rights).map(|n| format!("r{n}")).collect(),
            names: std::array::from_fn(|n| Some(format!("n{n}"))),
            rules: house.rules.iter().enumerate().map(rule).collect(),
        }
    }

    /// A right as it is written. One that the file does not have is shown by its number.
    pub fn right(&self, number: usize) -> String {
        let text = self.rights.get(number);
        text.map_or(number.to_string(), |text| word::written(text))
    }

    /// A right without quotes, for where it stands by itself.
    pub fn right_alone(&self, number: usize) -> String {
        self.rights
            .get(number)
            .map_or(number.to_string(), String::clone)
    }

    /// A name without quotes, for where it stands by itself.
    pub fn name_alone(&self, number: usize) -> String {
        let text = self.names.get(number).and_then(Option::as_ref);
        text.map_or(number.to_string(), String::clone)
    }

    /// A name as it is written. One that the table does not have is shown by its number.
    pub fn name(&self, number: usize) -> String {
        let text = self.names.get(number).and_then(Option::as_ref);
        text.map_or(number.to_string(), |text| word::written(text))
    }

    pub fn rule(&self, number: usize) -> String {
        let words = self.rules.get(number);
        words.map_or(number.to_string(), |words| word::written(&words.rule))
    }

    pub fn cell(&self, subject: usize, object: usize) -> String {
        format!("({}, {})", self.name(subject), self.name(object))
    }
}

/// The number that a spare blank gets.
pub fn job_number(given: &OsStr, blank: &str) -> Result<u8, Failure> {
    let text = given.to_string_lossy();
    let number = word::digits(&text).and_then(|_| text.parse().ok());
    number.ok_or_else(|| {
        let blank = word::written(blank);
        let advice = format!(
            "no condition and no step names the blank {blank}: give it a number from 0 to 255"
        );
        Failure::said(format!("{text} is no job number"), advice)
    })
}

/// What stands in a list in the place of a name or a comma.
fn unlisted(rest: &str) -> Failure {
    let message = match rest {
        "" => "a name is missing in the list".to_string(),
        rest => format!("{rest} cannot be read as a list of names"),
    };
    let advice = "write the names with a comma between them, as in Ada,Ben; one with a comma in it stands in quotes";
    Failure::said(message, advice)
}

impl Words {
    /// The number of a right that is given by word or number. Whether there is one of that number, the library says.
    pub fn right_number(&self, given: &OsStr) -> Result<u8, Failure> {
        let words = self.rights.iter().map(String::as_str).enumerate();
        self.find(given, "right", words.collect())
    }

    pub fn rule_number(&self, given: &OsStr) -> Result<u8, Failure> {
        let words = self.rules.iter().map(|rule| rule.rule.as_str());
        self.find(given, "rule", words.enumerate().collect())
    }

    pub fn name_number(&self, given: &OsStr) -> Result<u8, Failure> {
        let words = self.names.iter().enumerate();
        let words = words.filter_map(|(number, word)| Some((number, word.as_deref()?)));
        self.find(given, "name", words.collect())
    }

    /// The numbers of the names in a list, with commas between them. A name in quotes, as in a table, may have a comma.
    pub fn name_numbers(&self, list: &OsStr) -> Result<Vec<u8>, Failure> {
        let list = list.to_string_lossy();
        let mut numbers = Vec::new();
        let mut rest = list.as_ref();
        loop {
            rest = rest.trim_start();
            let name;
            (name, rest) = match rest.strip_prefix('"') {
                Some(quoted) => word::unquoted(quoted).ok_or_else(|| unlisted(rest))?,
                None => {
                    let (name, after) = rest.split_at(rest.find(',').unwrap_or(rest.len()));
                    (name.trim_end().to_string(), after)
                }
            };
            if name.is_empty() {
                return Err(unlisted(""));
            }
            numbers.push(self.name_number(OsStr::new(&name))?);
            rest = rest.trim_start();
            match rest.strip_prefix(',') {
                Some(after) => rest = after,
                None if rest.is_empty() => return Ok(numbers),
                None => return Err(unlisted(rest)),
            }
        }
    }

    /// No word of digits has another number than it spells, so a number is never taken for a word.
    fn find(&self, given: &OsStr, noun: &str, words: Vec<(usize, &str)>) -> Result<u8, Failure> {
        let text = given.to_string_lossy();
        if word::digits(&text).is_some() {
            return text.parse().map_err(|_| {
                let message = format!("{text} is no number of a {noun}");
                Failure::said(message, "give a number from 0 to 255, or a word")
            });
        }
        if let Some((number, _)) = words.iter().find(|(_, word)| *word == text) {
            return Ok(u8::try_from(*number).expect("numbers are below 32"));
        }
        let near = word::nearest(&text, words.iter().map(|(_, word)| *word));
        let all: Vec<String> = words.iter().map(|(_, text)| word::written(text)).collect();
        let advice = match near {
            _ if self.plain => "a house file has no words: give a number, or --names TABLE".into(),
            Some(near) => format!("did you mean {}?", word::written(near)),
            None if all.is_empty() => "there are none; give a number".to_string(),
            None => format!("give {}, or a number", one_of(&all)),
        };
        Err(Failure::said(format!("there is no {noun} {text}"), advice))
    }
}
