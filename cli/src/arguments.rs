//! The words of a command line: options and what is left.

use crate::failure::Failure;
use crate::table::word::nearest;
use std::ffi::{OsStr, OsString};

/// An option of a command.
pub struct Choice {
    /// With its dashes.
    pub long: &'static str,
    pub short: Option<&'static str>,
    /// What its value is called, if it takes one.
    pub value: Option<&'static str>,
    pub help: &'static str,
}

/// The words of a command line, sorted.
#[derive(Debug, Default)]
pub struct Arguments {
    /// Files, rights, rules and names, in order.
    pub plain: Vec<OsString>,
    options: Vec<(&'static str, OsString)>,
}

impl Arguments {
    /// Reads the words after the command's own.
    pub fn read(words: Vec<OsString>, choices: &[&Choice]) -> Result<Arguments, Failure> {
        let mut arguments = Arguments::default();
        let mut words = words.into_iter();
        while let Some(word) = words.next() {
            match word.to_str() {
                Some("--") => arguments.plain.extend(words.by_ref()),
                Some(text) if is_option(&word) => {
                    let (name, value) = split(text);
                    arguments.option(name, value, &mut words, choices)?;
                }
                _ => arguments.plain.push(word),
            }
        }
        Ok(arguments)
    }

    fn option(
        &mut self,
        name: &str,
        value: Option<&str>,
        words: &mut impl Iterator<Item = OsString>,
        choices: &[&Choice],
    ) -> Result<(), Failure> {
        let is = |choice: &&&Choice| choice.long == name || choice.short == Some(name);
        let choice = choices
            .iter()
            .find(is)
            .ok_or_else(|| unknown(name, choices))?;
        if self.has(choice.long) {
            let message = format!("the option {} is there twice", choice.long);
            return Err(Failure::said(message, "leave one out"));
        }
        let value = match (choice.value, value) {
            (None, None) => OsString::new(),
            (None, Some(_)) => {
                let message = format!("the option {} takes no value", choice.long);
                return Err(Failure::said(message, "leave out = and what follows it"));
            }
            (Some(_), Some(value)) => value.into(),
            (Some(called), None) => {
                let next = words.next().filter(|word| !is_option(word));
                next.ok_or_else(|| no_value(choice.long, called))?
            }
        };
        self.options.push((choice.long, value));
        Ok(())
    }

    pub fn has(&self, long: &str) -> bool {
        self.value(long).is_some()
    }

    /// The value of an option that is there; of one without a value it is empty.
    pub fn value(&self, long: &str) -> Option<&OsStr> {
        let found = self.options.iter().find(|(name, _)| *name == long);
        found.map(|(_, value)| value.as_os_str())
    }
}

/// Whether a word begins as options do; `-` alone is standard input or output.
fn is_option(word: &OsStr) -> bool {
    word.len() > 1 && word.as_encoded_bytes().starts_with(b"-")
}

fn no_value(option: &str, called: &str) -> Failure {
    let advice = format!("write {option} {called}; a path that begins with - follows {option}=");
    Failure::said(format!("the option {option} has no value"), advice)
}

/// `--option=value` in its two parts.
fn split(text: &str) -> (&str, Option<&str>) {
    match text.split_once('=') {
        Some((name, value)) => (name, Some(value)),
        None => (text, None),
    }
}

fn unknown(name: &str, choices: &[&Choice]) -> Failure {
    let near = nearest(name, choices.iter().map(|choice| choice.long));
    let advice = match near {
        Some(near) => format!("did you mean {near}? --help tells all options"),
        None => "--help tells all options; a file whose name begins with - comes after --".into(),
    };
    Failure::said(format!("there is no option {name}"), advice)
}
