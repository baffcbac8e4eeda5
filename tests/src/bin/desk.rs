//! Runs the desk program on the stored inputs of `desk/` and compares what it
//! prints with the stored outputs, and on generated inputs with the reference.
//! Arguments: the seed; the word `self` puts the reference in its place. The
//! executable is `../target/bin/desk`, or DESK_PROGRAM names it.

use reference::damage::{plant, Fault};
use reference::desk::desk;
use reference::file::{self, RIGHTS};
use reference::generate::*;
use reference::random::Random;
use reference::report::{hex, Arguments, Group, Report};
use reference::stored::{cases, Case};
use std::fs::File;
use std::io::Write;
use std::os::fd::OwnedFd;
use std::os::unix::net::UnixStream;
use std::path::PathBuf;
use std::process::{Command, Output, Stdio};
use std::{env, fs};

/// What answers an input: bytes printed, or what went wrong.
struct Desk {
    /// None for the reference itself.
    program: Option<PathBuf>,
    scratch: PathBuf,
}

impl Desk {
    /// The input from a file, as in `desk < file`.
    fn answer(&self, input: &[u8]) -> Result<Vec<u8>, String> {
        let Some(program) = &self.program else {
            return Ok(desk(input).into_bytes());
        };
        fs::write(&self.scratch, input).map_err(|wrong| wrong.to_string())?;
        let file = File::open(&self.scratch).map_err(|wrong| wrong.to_string())?;
        let output = Command::new(program)
            .stdin(file)
            .output()
            .map_err(|wrong| format!("{}: {wrong}", program.display()))?;
        printed(output)
    }

    /// The input through a pipe, in two parts: one read does not get it all.
    fn answer_in_parts(&self, input: &[u8], cut: usize) -> Result<Vec<u8>, String> {
        let Some(program) = &self.program else {
            return Ok(desk(input).into_bytes());
        };
        let mut child = Command::new(program)
            .stdin(Stdio::piped())
            .stdout(Stdio::piped())
            .stderr(Stdio::piped())
            .spawn()
            .map_err(|wrong| format!("{}: {wrong}", program.display()))?;
        let mut pipe = child.stdin.take().expect("piped");
        // A program that has read enough may close the pipe.
        let _ = pipe.write_all(&input[..cut]);
        std::thread::sleep(std::time::Duration::from_millis(5));
        let _ = pipe.write_all(&input[cut..]);
        drop(pipe);
        printed(
            child
                .wait_with_output()
                .map_err(|wrong| wrong.to_string())?,
        )
    }
}

/// Exit status 0 and nothing on standard error, else it is no answer.
fn printed(output: Output) -> Result<Vec<u8>, String> {
    if output.status.code() != Some(0) || !output.stderr.is_empty() {
        let told = String::from_utf8_lossy(&output.stderr);
        return Err(format!("{}, standard error {told:?}", output.status));
    }
    Ok(output.stdout)
}

/// What a run with these streams printed and said, where the program is the proved one.
fn said(program: &PathBuf, input: Stdio, output: Stdio) -> Result<(Vec<u8>, String), String> {
    let ran = Command::new(program)
        .stdin(input)
        .stdout(output)
        .stderr(Stdio::piped())
        .spawn()
        .and_then(|child| child.wait_with_output())
        .map_err(|wrong| format!("{}: {wrong}", program.display()))?;
    Ok((
        ran.stdout,
        String::from_utf8_lossy(&ran.stderr).into_owned(),
    ))
}

/// A socket whose other end was closed with a byte unread: one read fails, and the next one finds the end.
fn closed_unread() -> std::io::Result<Stdio> {
    let (mut ours, theirs) = UnixStream::pair()?;
    ours.write_all(&[0])?;
    drop(theirs);
    Ok(OwnedFd::from(ours).into())
}

/// A folder cannot be read: that is no empty input, and neither is a read that fails once. A full device takes no answer.
fn streams_that_fail(group: &mut Group, program: &PathBuf) {
    let open = |path: &str| File::open(path).map(Stdio::from);
    let full = File::options().write(true).open("/dev/full");
    let (Ok(folder), Ok(socket), Ok(example), Ok(full)) = (
        open("."),
        closed_unread(),
        open("../tables/vermilion.file"),
        full,
    ) else {
        group.input(false, || "the streams could not be opened".to_string());
        return;
    };
    for (what, input) in [("a folder", folder), ("a closed socket", socket)] {
        let read = said(program, input, Stdio::piped());
        group.input(
            matches!(&read, Ok((out, told)) if out.is_empty() && told.starts_with("standard input: ")),
            || format!("{what} as input: {read:?}"),
        );
    }
    let written = said(program, example, full.into());
    group.input(
        matches!(&written, Ok((_, told)) if told.starts_with("standard output: ")),
        || format!("a full device as output: {written:?}"),
    );
}

fn same(group: &mut Group, given: Result<Vec<u8>, String>, wanted: &[u8], input: &[u8]) {
    group.input(given.as_deref() == Ok(wanted), || {
        let given = given.map(|bytes| String::from_utf8_lossy(&bytes).into_owned());
        let wanted = String::from_utf8_lossy(wanted);
        format!("given {given:?}, wanted {wanted:?}, input {}", hex(input))
    });
}

/// Cases and generated inputs of all sorts that the judge can be asked about.
fn generated(random: &mut Random) -> Vec<u8> {
    let (draft, right) = match random.below(4) {
        0 => (any(random), random.below(usize::from(RIGHTS) + 1) as u8),
        1 => chain(random),
        _ => (small(random), random.below(2) as u8),
    };
    let mut input = vec![right];
    let fault = Fault::any(random, draft.rules.len());
    input.extend(match random.percent(20) {
        true => plant(random, &draft, &[fault]),
        false => draft.file(),
    });
    input
}

/// Whether a step of the listing is of a rule with spare blanks.
fn lists_spares(input: &[u8], listing: &str) -> bool {
    let Ok(contents) = file::read(input.get(1..).unwrap_or(&[])) else {
        return false;
    };
    let numbers = listing.lines().skip(1).map(|line| line.split(' ').next());
    let mut rules = numbers.filter_map(|number| number?.parse::<usize>().ok());
    rules.any(|rule| !contents.rules[rule].spare.is_empty())
}

fn main() {
    let arguments = Arguments::read("desk");
    let program = env::var_os("DESK_PROGRAM")
        .map_or_else(|| PathBuf::from("../target/bin/desk"), PathBuf::from);
    let desk_program = Desk {
        program: (!arguments.own).then_some(program),
        scratch: env::temp_dir().join(format!("desk-input-{}", std::process::id())),
    };
    let mut random = Random::new(arguments.seed);
    let random = &mut random;
    let mut report = Report::default();

    let stored = cases("desk").unwrap_or_else(|wrong| {
        println!("stored cases: {wrong}");
        Vec::new()
    });
    // A group each, so that each case counts as passed or failed.
    for Case {
        name,
        input,
        wanted,
    } in &stored
    {
        report.group(name, 2, |group| {
            same(group, desk_program.answer(input), wanted, input);
            let cut = random.below(input.len() + 1);
            let in_parts = desk_program.answer_in_parts(input, cut);
            same(group, in_parts, wanted, input);
        });
    }
    report.group("stored cases are all there", 50, |group| {
        group.inputs = stored.len() as u64;
        for number in 1..=8 {
            let name = format!("p{number}");
            let there = stored.iter().any(|case| case.name == name);
            group.demand(there, || format!("no case {name}"));
        }
        for count in ["one-spare-blank", "two-spare-blanks", "three-spare-blanks"] {
            let there = stored.iter().any(|case| case.name == count);
            group.demand(there, || format!("no case {count}"));
        }
        let refusals = [1, 2, 3, 4, 5, 6, 7, 8, 9, 21, 22, 23, 44];
        let lines = refusals
            .iter()
            .map(|refusal| format!("REFUSED {refusal}\n"));
        for line in lines.chain(["SAFE 0\n".to_string()]) {
            let there = stored.iter().any(|case| case.wanted == line.as_bytes());
            group.demand(there, || format!("no case prints {line:?}"));
        }
    });

    // What tables/README.md says of the example.
    report.group("the example file", 2, |group| {
        let file = fs::read("../tables/vermilion.file").unwrap_or_default();
        let unsafe_steps = "UNSAFE 3\n0 0 1 3\n1 1 2 3\n3 2 3\n";
        for (right, wanted) in [(3, unsafe_steps), (0, "SAFE 3\n")] {
            let input = [vec![right], file.clone()].concat();
            let answer = desk_program.answer(&input);
            same(group, answer, wanted.as_bytes(), &input);
        }
    });

    if let Some(program) = &desk_program.program {
        report.group("streams that fail", 3, |group| {
            streams_that_fail(group, program);
        });
    }

    report.group("generated inputs", 600, |group| {
        let (mut first_words, mut spare) = ([0; 3], 0);
        while group.inputs < 600 {
            let input = generated(random);
            let wanted = desk(&input);
            spare += u64::from(lists_spares(&input, &wanted));
            let words = ["SAFE", "UNSAFE", "REFUSED"];
            let word = words.iter().position(|word| wanted.starts_with(word));
            first_words[word.expect("one of the three")] += 1;
            same(
                group,
                desk_program.answer(&input),
                wanted.as_bytes(),
                &input,
            );
        }
        let [safe, unsafe_ones, refused] = first_words;
        println!(
            "  safe {safe}, unsafe {unsafe_ones}, {spare} with spare blanks in their steps, refused {refused}"
        );
        group.demand(spare >= 40, || format!("only {spare} with spare blanks in their steps"));
        for count in first_words {
            group.demand(count >= 60, || format!("only {count} of one answer"));
        }
    });

    let _ = fs::remove_file(&desk_program.scratch);
    report.finish();
}
