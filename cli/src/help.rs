//! What --help and --version print.

use crate::arguments::Choice;
use crate::commands::{Command, ALL};
use std::fmt::Write;

pub fn version() -> String {
    format!("tugcaphi {}\n", env!("CARGO_PKG_VERSION"))
}

pub fn program() -> String {
    let mut text = String::from(
        "tugcaphi: who may come to hold which right, judged by a proved library\n\n\
         usage: tugcaphi COMMAND ..\n\ncommands:\n",
    );
    for command in ALL {
        let _ = writeln!(text, "  {:<7} {}", command.name, command.summary);
    }
    text.push_str(
        "\nEach has its own help: tugcaphi judge --help. FILE is a house file, TABLE a table in words; - is\n\
         standard input. Every command takes --json.\n\n\
         exit status:\n\
         \x20 0  safe, held, done, accepted, no leak\n\
         \x20 1  unsafe, never held, or a leak\n\
         \x20 2  refused; docs/REFUSALS.md tells every number\n\
         \x20 3  anything else (usage, files), said on standard error with what to do\n\
         Of several answers it is the highest.\n\n\
         docs: USING.md (the first ten minutes), TABLES.md, REFUSALS.md, FORMAT.md, JSON.md\n",
    );
    text
}

pub fn command(command: &Command) -> String {
    let mut text = format!(
        "tugcaphi {}: {}\n\nusage: tugcaphi {} {}\n\n{}\n\noptions:\n",
        command.name, command.summary, command.name, command.usage, command.about
    );
    let choices = command.choices();
    let wide = choices.iter().map(|choice| shape(choice).len()).max();
    for choice in &choices {
        let wide = wide.unwrap_or(0);
        let _ = writeln!(text, "  {:<wide$}  {}", shape(choice), choice.help);
    }
    text
}

/// An option as it is written: `-o, --output FILE`.
fn shape(choice: &Choice) -> String {
    let mut text = String::new();
    if let Some(short) = choice.short {
        let _ = write!(text, "{short}, ");
    }
    text.push_str(choice.long);
    if let Some(value) = choice.value {
        let _ = write!(text, " {value}");
    }
    text
}
