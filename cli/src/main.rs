//! The program; all of it is in the library beside it.

use std::process::ExitCode;

fn main() -> ExitCode {
    let words = std::env::args_os().skip(1).collect();
    ExitCode::from(tugcaphi::program::run(words))
}
