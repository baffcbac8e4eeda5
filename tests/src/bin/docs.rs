//! The pages and the header that users go by, held to the library: the worked
//! example of docs/FORMAT.md, the table of docs/REFUSALS.md against the
//! program's own, include/tugcaphi.h with its example in C, compiled and run,
//! the stack that the calls use, `install`, how many crates README counts, and
//! that every page that a page leads to is there. Argument: the seed.

use reference::file::RIGHTS;
use reference::generate::*;
use reference::random::Random;
use reference::report::{hex, Arguments, Group, Report};
use reference::stack::used;
use reference::trusted::any_names;
use reference::{file, scene, twelve};
use std::fs;
use std::path::{Path, PathBuf};
use std::process::Command;
use tugcaphi::refusals;

#[path = "../boundary/check.rs"]
mod check;
#[path = "../boundary/judge.rs"]
mod judge;
#[path = "../boundary/need.rs"]
mod need;
#[path = "../boundary/part.rs"]
mod part;
#[path = "../boundary/replay.rs"]
mod replay;
#[path = "../boundary/run.rs"]
mod run;
#[path = "../boundary/sheet.rs"]
mod sheet;

fn page(name: &str) -> String {
    fs::read_to_string(Path::new("..").join(name)).unwrap_or_default()
}

/// The bytes of a listing: lines of an offset, bytes in hexadecimal, `00 x 29`
/// for 29 of them, and two spaces before words.
fn listed(listing: &str) -> Result<Vec<u8>, String> {
    let mut bytes = Vec::new();
    for line in listing.lines() {
        let about = |what: &str| format!("{what}: {line}");
        let (offset, rest) = line.split_once(' ').ok_or_else(|| about("no offset"))?;
        let rest = rest.trim_start().split("  ").next().unwrap_or_default();
        if offset.parse() != Ok(bytes.len()) {
            return Err(about(&format!("offset {}", bytes.len())));
        }
        let words: Vec<&str> = rest.split(' ').collect();
        let byte = |word: &str| u8::from_str_radix(word, 16).map_err(|_| about("no byte"));
        if let [value, "x", times] = words.as_slice() {
            let times: usize = times.parse().map_err(|_| about("no number"))?;
            bytes.resize(bytes.len() + times, byte(value)?);
            continue;
        }
        for word in words {
            bytes.push(byte(word)?);
        }
    }
    Ok(bytes)
}

fn format_page(group: &mut Group) {
    let page = page("docs/FORMAT.md");
    let listing = page.split("```\n").nth(1).unwrap_or_default();
    let file = listed(listing).unwrap_or_else(|wrong| {
        group.demand(false, || wrong);
        Vec::new()
    });
    let mut draft = Draft::empty(2);
    draft.kinds[..3].copy_from_slice(&[2, 2, 1]);
    draft.put(0, 2, 0);
    draft.carry(0, 1);
    draft.rules.push(rule(3, &[[1, 0, 2]], &[[ENTER, 1, 1, 2]]));
    group.input(file == draft.file(), || {
        format!("the bytes: {}", hex(&file))
    });
    group.input(
        file.len() == 2_112 && page.contains("file of 2,112 bytes"),
        || "its length".to_string(),
    );
    group.input(check::check(&file) == 0, || "not accepted".to_string());
    // What the page says of a run, and of the judge.
    let mut after = file.clone();
    let code = run::run(&mut after, 0, [0, 1, 2, 255]);
    let changed: Vec<usize> = (0..file.len())
        .filter(|&at| file[at] != after[at])
        .collect();
    let good = code == 0 && changed == [118] && after[118] == 2;
    let said = page
        .contains("byte 118, the low one of cell (1, 2) at 50 + 2 × (32 × 1 + 2), becomes `02`");
    group.input(good && said, || format!("the run: {code}, {changed:?}"));
    let mut buffer = [0; 170];
    let unsafe_ = judge::judge(&file, 1, &mut buffer);
    let trace = buffer[..5].iter().map(|byte| format!("{byte:02x}"));
    let trace = trace.collect::<Vec<_>>().join(" ");
    let said = page.contains(&format!("its trace is `{trace}`"));
    group.input(unsafe_ == (255, 1) && said, || {
        format!("right 1: {unsafe_:?}, {trace}")
    });
    let safe = judge::judge(&file, 0, &mut buffer).0;
    group.input(safe == 0, || format!("right 0: {safe}"));
    let mut bare = file.clone();
    bare[2_098] = 0;
    let safe = judge::judge(&bare, 1, &mut buffer).0;
    let said = page.contains("With `00 00` at 2,098 right 1 is safe too");
    group.input(safe == 0 && said, || {
        format!("right 1, nothing carried: {safe}")
    });
    let ends = [Draft::empty(1).file(), twelve::longest()];
    let accepted = ends.iter().all(|file| check::check(file) == 0);
    let lengths = ends.map(|file| file.len());
    let said = page.contains("an accepted one has 2,096 to 3,494");
    group.input(lengths == [2_096, 3_494] && accepted && said, || {
        format!("lengths {lengths:?}, accepted {accepted}")
    });
    // The format of before is refused as the page says.
    let of_before = twelve::of_before(8);
    let refusal = check::check(&of_before);
    let said = page.contains("is refused with 5");
    group.input(refusal == 5 && said, || format!("of before: {refusal}"));
}

/// The page has one line for each number, in the program's own words.
fn refusals_page(group: &mut Group) {
    let page = page("docs/REFUSALS.md");
    let rows: Vec<Vec<String>> = page
        .lines()
        .filter_map(|line| line.strip_prefix("| ")?.strip_suffix(" |"))
        .filter(|line| line.starts_with(|first: char| first.is_ascii_digit()))
        .map(|line| {
            line.replace('`', "")
                .split(" | ")
                .map(String::from)
                .collect()
        })
        .collect();
    let numbers: Vec<&str> = rows.iter().map(|row| row[0].as_str()).collect();
    let wanted: Vec<String> = (1..=9)
        .chain(11..=15)
        .chain(21..=24)
        .chain([31, 41, 42, 43, 44])
        .map(|number: u8| number.to_string())
        .collect();
    group.demand(numbers == wanted, || format!("the numbers are {numbers:?}"));
    for row in &rows {
        let number = row[0].parse().unwrap_or_default();
        let own = refusals::of(number);
        if number == 13 {
            // The number stays unused, in the program too.
            let given = refusals::ALL.iter().any(|one| one.number == number);
            group.input(row[1] == "nobody" && !given, || {
                format!(
                    "13 is given by {}, and the program has {}",
                    row[1], own.meaning
                )
            });
            continue;
        }
        let own = [own.cause, own.meaning, own.remedy].map(|text| text.replace('`', ""));
        group.input(row[1..] == own, || {
            format!("{number}: the program has {own:?}")
        });
    }
}

fn compiled(group: &mut Group, compiler: &str, words: &[&str], about: &str) -> bool {
    let output = Command::new(compiler).args(words).output();
    let wrong = match &output {
        Ok(output) if output.status.success() => None,
        Ok(output) => Some(String::from_utf8_lossy(&output.stderr).into_owned()),
        Err(wrong) => Some(wrong.to_string()),
    };
    group.input(wrong.is_none(), || format!("{about}: {wrong:?}"));
    wrong.is_none()
}

fn library_folder() -> PathBuf {
    let set = std::env::var_os("ACCESS_LIB_DIR");
    set.map_or(PathBuf::from("../target/staticlib"), PathBuf::from)
}

/// The header compiles by itself, and the example prints what its head says.
fn header(group: &mut Group) {
    let strict = ["-Wall", "-Wextra", "-Werror", "-pedantic"];
    let header = "../include/tugcaphi.h";
    let alone = [
        &strict[..],
        &["-std=c99", "-fsyntax-only", "-x", "c", header],
    ]
    .concat();
    compiled(group, "gcc", &alone, "the header in C");
    if Command::new("g++").arg("--version").output().is_ok() {
        let alone = [&strict[..], &["-fsyntax-only", "-x", "c++", header]].concat();
        compiled(group, "g++", &alone, "the header in C++");
    }
    let scene = scene::Scene::new("example");
    let program = scene.path("example");
    let folder = library_folder();
    let (program, folder) = (program.to_string_lossy(), folder.to_string_lossy());
    let words = [
        "-std=c99",
        "-I",
        "../include",
        "../include/example.c",
        "-o",
        &program,
    ];
    let words = [&strict[..], &words, &["-L", &folder, "-l", "exports"]].concat();
    if !compiled(group, "gcc", &words, "the example") {
        return;
    }
    let text = page("include/example.c");
    let head = text.split("It prints:\n *\n").nth(1).unwrap_or_default();
    let wanted: String = head
        .lines()
        .map_while(|line| line.strip_prefix(" *   "))
        .map(|line| format!("{line}\n"))
        .collect();
    let output = Command::new(program.as_ref()).output();
    let printed = output.map(|output| String::from_utf8_lossy(&output.stdout).into_owned());
    let good = printed.as_ref().is_ok_and(|printed| *printed == wanted) && !wanted.is_empty();
    group.input(good, || format!("printed {printed:?}, wanted {wanted:?}"));
}

/// `install` puts all three where a compiler finds them, and refuses what it
/// does not know.
fn install(group: &mut Group) {
    let scene = scene::Scene::new("install");
    let prefix = scene.path("a prefix");
    let installed = Command::new("bash").arg("../install").arg(&prefix).output();
    let good = installed.is_ok_and(|output| output.status.success());
    group.input(good, || "it failed".to_string());
    let version = Command::new(prefix.join("bin/tugcaphi"))
        .arg("--version")
        .output();
    let good = version.is_ok_and(|output| output.stdout.starts_with(b"tugcaphi "));
    group.input(good, || "the program does not start".to_string());
    let program = scene.path("example").to_string_lossy().into_owned();
    let within = |folder: &str| prefix.join(folder).to_string_lossy().into_owned();
    let (include, library) = (within("include"), within("lib"));
    // Away from the header that lies beside it.
    let example = scene.path("example.c").to_string_lossy().into_owned();
    fs::copy("../include/example.c", &example).expect("an example of ours");
    let words = [&example, "-I", &include, "-L", &library];
    let words = [&words[..], &["-l", "tugcaphi", "-o", &program]].concat();
    compiled(group, "gcc", &words, "the example");
    let unknown = Command::new("bash").args(["../install", "--help"]).output();
    let good = unknown.is_ok_and(|output| output.status.code() == Some(2));
    group.input(good, || "an option was taken for a folder".to_string());
}

/// A number that the header defines, as a C compiler reads it.
fn defined(name: &str) -> usize {
    let scene = scene::Scene::new("defined");
    let text = format!(
        "#include <stdio.h>\n#include \"tugcaphi.h\"\n\
         int main(void) {{ printf(\"%zu\", (size_t){name}); }}\n"
    );
    scene.write("number.c", text.as_bytes());
    let (source, program) = (scene.path("number.c"), scene.path("number"));
    let compiler = Command::new("gcc")
        .args(["-I", "../include", "-o"])
        .args([&program, &source])
        .output();
    let made = compiler.is_ok_and(|output| output.status.success());
    let output = Command::new(program).output().ok().filter(|_| made);
    let number = output.and_then(|output| String::from_utf8(output.stdout).ok()?.parse().ok());
    number.unwrap_or_default()
}

/// No call uses more stack than the header says, nor less than a fourth of it.
fn stack(group: &mut Group, random: &mut Random) {
    let mut most = [0; 7];
    let mut seen = |call: usize, bytes: usize| most[call] = bytes.max(most[call]);
    let mut buffer = vec![0; defined("TUGCAPHI_BUFFER")];
    let mut sheets = vec![0; 8 * buffer.len()];
    for turn in 0..60 {
        let draft = match turn % 4 {
            0 => large(random).0,
            1 => busy_chain(random).0,
            2 => longest(random),
            _ => turbulent(random),
        };
        let file = draft.file();
        seen(0, used(|| _ = check::check(&file)));
        let mut changed = file.clone();
        seen(1, used(|| _ = run::run(&mut changed, 0, [0, 1, 255, 255])));
        for right in 0..draft.rights {
            let mut steps = 0;
            seen(
                3,
                used(|| steps = judge::judge(&file, right, &mut buffer).1),
            );
            let trace = &buffer[..5 * steps as usize];
            seen(2, used(|| _ = replay::replay(&file, trace, right)));
            let matrix = file::read(&file).expect("an accepted file").matrix;
            let list = any_names(random, &matrix);
            seen(
                5,
                used(|| _ = part::judge_part(&file, right, &list, &mut buffer)),
            );
        }
        let names: Vec<u8> = (0..32).filter(|&n| draft.kinds[n as usize] == 2).collect();
        for cells in [0, 1, 8] {
            let ends = (names.first(), names.last());
            let (Some(&subject), Some(&name)) = ends else {
                continue;
            };
            let list = [draft.rights - 1, subject, name].repeat(cells);
            seen(4, used(|| _ = need::need(&file, &list, &mut buffer)));
        }
        for count in [0, 1, 8] {
            let entry = |_| [random.below(usize::from(draft.rights)) as u8, 0, 0, 0];
            let mut entries: Vec<u8> = (0..count).flat_map(entry).collect();
            seen(
                6,
                used(|| _ = sheet::sheet(&file, &mut entries, &mut sheets)),
            );
        }
        group.inputs += 1;
    }
    println!(
        "  check {}, run {}, replay {}, judge {}, need {}, part {}, sheet {} bytes",
        most[0], most[1], most[2], most[3], most[4], most[5], most[6]
    );
    let said = defined("TUGCAPHI_STACK");
    let highest = most.into_iter().max().unwrap_or_default();
    group.demand(highest <= said && said / 4 <= highest, || {
        format!("the header says {said}")
    });
}

/// As many rights as the header says are taken, and one more is not; a set has as
/// many bytes.
fn rights(group: &mut Group) {
    let (most, set) = (defined("TUGCAPHI_RIGHTS"), defined("TUGCAPHI_SET"));
    for (rights, wanted) in [(1, 0), (most, 0), (most + 1, 2)] {
        let code = check::check(&Draft::empty(rights as u8).file());
        group.input(code == wanted, || format!("{rights} rights: {code}"));
    }
    for (bytes, wanted) in [(set, 0), (set - 1, 5), (set + 1, 5)] {
        let mut sections = Draft::empty(1).sections();
        sections[1].resize(bytes * 32 * 32, 0);
        let code = check::check(&joined(1, &sections));
        group.input(code == wanted, || format!("{bytes} bytes a cell: {code}"));
    }
}

/// The buffer that the header calls long enough is, and one byte less is not.
fn buffer_length(group: &mut Group) {
    let mut draft = Draft::empty(RIGHTS);
    draft.kinds[..30].fill(2);
    let file = draft.file();
    assert!(file::check(&file) == 0);
    let length = defined("TUGCAPHI_BUFFER");
    let said = page("include/tugcaphi.h").contains("whatever the file: 59,540.");
    group.demand(length == 59_540 && said, || format!("a buffer of {length}"));
    for (length, wanted) in [(length, 0), (length.saturating_sub(1), 24)] {
        let code = judge::judge(&file, 0, &mut vec![0; length]).0;
        group.input(code == wanted, || format!("judge, {length} bytes: {code}"));
        let code = need::need(&file, &[0, 0, 0], &mut vec![0; length]).0;
        group.input(code == wanted, || format!("need, {length} bytes: {code}"));
        let code = part::judge_part(&file, 0, &[0], &mut vec![0; length]).0;
        group.input(code == wanted, || format!("part, {length} bytes: {code}"));
        // A sheet needs as much for each entry.
        let mut entries = [9; 12];
        for right in entries.iter_mut().step_by(4) {
            *right = 0;
        }
        sheet::sheet(&file, &mut entries, &mut vec![0; 3 * length + 2]);
        let codes = [entries[1], entries[5], entries[9]];
        group.input(codes == [wanted; 3], || {
            format!("sheet, {length} bytes each: {codes:?}")
        });
    }
}

/// A sheet of as many entries as the header says is taken, with bytes behind them
/// too; one more entry is not.
fn sheet_length(group: &mut Group) {
    let mut draft = Draft::empty(1);
    draft.kinds[0] = 2;
    let file = draft.file();
    let (entry, entries) = (defined("TUGCAPHI_ENTRY"), defined("TUGCAPHI_ENTRIES"));
    let most = entry * entries;
    let mut buffer = vec![0; entries * defined("TUGCAPHI_BUFFER")];
    for (length, wanted) in [(most, 0), (most + entry - 1, 0), (most + entry, 43)] {
        let mut sheet = vec![0; length];
        // The code of the last entry that is taken, to see that it is answered.
        let last = most - entry + 1;
        sheet[last] = 7;
        let code = sheet::sheet(&file, &mut sheet, &mut buffer);
        let kept = sheet[last] == if wanted == 0 { 0 } else { 7 };
        group.input(code == wanted && kept, || format!("{length} bytes: {code}"));
    }
}

/// A list of as many cells as the header says is taken; a byte less or more, or
/// one more cell, is not.
fn list_length(group: &mut Group) {
    let mut draft = Draft::empty(1);
    draft.kinds[0] = 2;
    let file = draft.file();
    let (cell, cells) = (defined("TUGCAPHI_CELL"), defined("TUGCAPHI_CELLS"));
    let most = cell * cells;
    let mut buffer = vec![0; defined("TUGCAPHI_BUFFER")];
    for (length, wanted) in [(most, 0), (most - 1, 41), (most + 1, 41), (most + cell, 41)] {
        let code = need::need(&file, &vec![0; length], &mut buffer).0;
        group.input(code == wanted, || format!("{length} bytes: {code}"));
    }
}

/// README says how many crates a build proves: the library and what it stands on.
fn crates_of_a_build(group: &mut Group) {
    let listed = page("crates.txt");
    let lines: Vec<(&str, &str)> = listed
        .lines()
        .filter_map(|line| line.split_once(':'))
        .map(|(head, needs)| (head.split(' ').next().unwrap_or_default(), needs))
        .collect();
    let mut all = vec!["exports"];
    let mut at = 0;
    while let Some(&one) = all.get(at) {
        let needs = lines.iter().find(|(name, _)| *name == one);
        let needs = needs.map_or("", |(_, needs)| needs).split_whitespace();
        // What is not listed is the kit's.
        let ours = needs.filter(|need| lines.iter().any(|(name, _)| name == need));
        for need in ours {
            if !all.contains(&need) {
                all.push(need);
            }
        }
        at += 1;
    }
    let said = format!("each of the {} crates", all.len());
    group.input(page("README.md").contains(&said), || {
        format!("it does not say {said:?}")
    });
}

/// Every link of a page to a file of the repository leads to one.
fn links(group: &mut Group) {
    let mut pages = vec![PathBuf::from("../README.md")];
    for folder in ["docs", "tables", "bench"] {
        let entries = fs::read_dir(Path::new("..").join(folder)).expect("a folder of ours");
        pages.extend(entries.map(|entry| entry.expect("an entry").path()));
    }
    pages.retain(|page| page.extension().is_some_and(|ending| ending == "md"));
    for page in pages {
        let text = fs::read_to_string(&page).expect("a page of ours");
        for part in text.split("](").skip(1) {
            let to = part.split([')', '#']).next().unwrap_or_default();
            if to.is_empty() || to.contains("://") {
                continue;
            }
            let there = page.with_file_name(to).exists();
            group.input(there, || format!("{} leads to {to}", page.display()));
        }
    }
}

fn main() {
    let arguments = Arguments::read("docs");
    let mut random = Random::new(arguments.seed);
    let mut report = Report::default();
    report.group("docs/FORMAT.md: the worked example", 9, format_page);
    report.group("docs/REFUSALS.md: the program's words", 23, refusals_page);
    report.group("include/tugcaphi.h and its example", 3, header);
    report.group("include/tugcaphi.h: the rights", 6, rights);
    report.group("include/tugcaphi.h: the buffer", 8, buffer_length);
    report.group("include/tugcaphi.h: the list of cells", 4, list_length);
    report.group("include/tugcaphi.h: the sheet", 3, sheet_length);
    report.group("install", 4, install);
    report.group("README.md: the crates of a build", 1, crates_of_a_build);
    report.group("links of the pages", 20, links);
    report.group("include/tugcaphi.h: the stack", 60, |group| {
        stack(group, &mut random)
    });
    report.finish();
}
