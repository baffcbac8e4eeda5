//! Colour and the width of the grid: on a terminal, and nowhere else.

use super::execute::{program, Folder};
use reference::report::Report;
use std::ffi::{c_char, c_int, c_ulong, CStr};
use std::fs::{File, OpenOptions};
use std::io::Read;
use std::os::fd::AsRawFd;
use std::process::{Command, Stdio};

extern "C" {
    fn grantpt(descriptor: c_int) -> c_int;
    fn unlockpt(descriptor: c_int) -> c_int;
    fn ptsname(descriptor: c_int) -> *const c_char;
    fn ioctl(descriptor: c_int, request: c_ulong, ...) -> c_int;
}

/// Sets the size of a terminal's window (Linux).
const SET_WINDOW_SIZE: c_ulong = 0x5414;

const WIDE: &str = "table 1\nrights own\nsubjects formula1..formula20\ncell (formula1..formula20, formula7): own\n\
                    rule pass (a, b, c): if own in (a, c) enter own into (b, a)\n";

pub fn run(report: &mut Report) {
    let folder = Folder::new("terminals");
    folder.write("wide.table", WIDE.as_bytes());
    report.group("colour on a terminal alone", 4, |group| {
        let judge = ["judge", "wide.table"];
        let coloured = |text: &str| text.contains('\u{1b}');
        let said = on_terminal(&folder, &judge, &[("TERM", "xterm")], 80);
        group.input(coloured(&said.0), || {
            format!("no colour on a terminal: {said:?}")
        });
        let plain = [("TERM", "xterm"), ("NO_COLOR", "1")];
        let said = on_terminal(&folder, &judge, &plain, 80);
        group.input(!coloured(&said.0), || "colour against NO_COLOR".into());
        let said = on_terminal(&folder, &judge, &[("TERM", "dumb")], 80);
        group.input(!coloured(&said.0), || "colour on a dumb terminal".into());
        let said = in_pipe(&folder, &judge);
        group.input(!coloured(&said), || "colour in a pipe".into());
    });
    report.group("the grid's width on a terminal alone", 7, |group| {
        let show = ["show", "wide.table"];
        for columns in [60, 100] {
            let said = on_terminal(&folder, &show, &[("TERM", "dumb")], columns);
            let wide = grid_width(&said.0);
            group.input(wide <= columns && said.0.contains("formula20"), || {
                format!("a grid of {wide} on {columns} columns")
            });
        }
        let wide = grid_width(&in_pipe(&folder, &show));
        group.input(wide > 180, || format!("the grid in a pipe is {wide} wide"));
        let need = ["need", "wide.table", "own", "formula2", "formula1"];
        for columns in [60, 100] {
            let said = on_terminal(&folder, &need, &[("TERM", "dumb")], columns);
            let wide = needed_width(&said.0);
            group.input(wide <= columns && said.0.contains("formula20"), || {
                format!("a grid of {wide} on {columns} columns after the steps")
            });
        }
        let wide = needed_width(&in_pipe(&folder, &need));
        group.input(wide > 180, || {
            format!("the grid after the steps is {wide} wide in a pipe")
        });
        let said = on_terminal(&folder, &["make", "wide.table", "-o", "-"], &[], 80);
        group.input(said.1 == 3, || "a house file on a terminal".into());
    });
}

fn in_pipe(folder: &Folder, words: &[&str]) -> String {
    let words: Vec<String> = words.iter().map(|word| word.to_string()).collect();
    String::from_utf8_lossy(&folder.run(&words, None).out).into_owned()
}

fn grid_width(text: &str) -> usize {
    let grid = text.lines().filter(|line| line.starts_with('#'));
    grid.map(|line| line.chars().count()).max().unwrap_or(0)
}

/// The lines of a grid that stands in no comments have an edge.
fn needed_width(text: &str) -> usize {
    let grid = text.lines().filter(|line| line.contains(['│', '┼']));
    grid.map(|line| line.chars().count()).max().unwrap_or(0)
}

/// What the program prints on a terminal of so many columns, and its exit status.
fn on_terminal(
    folder: &Folder,
    words: &[&str],
    variables: &[(&str, &str)],
    columns: usize,
) -> (String, i32) {
    let (master, screen) = terminal(columns);
    let mut command = Command::new(program());
    command
        .args(words)
        .current_dir(&folder.path)
        .env_remove("NO_COLOR")
        .env_remove("COLUMNS")
        .envs(variables.iter().copied())
        .stdin(Stdio::null())
        .stdout(screen)
        .stderr(Stdio::null());
    let mut child = command.spawn().expect("the program");
    // The command holds the screen open; the end of the output is its closing.
    drop(command);
    let shown = all_of(master);
    let status = child.wait().expect("the program").code().unwrap_or(-1);
    (shown.replace("\r\n", "\n"), status)
}

/// A terminal: the side that is read, and the side that a program writes to.
fn terminal(columns: usize) -> (File, File) {
    let mut options = OpenOptions::new();
    let options = options.read(true).write(true);
    let master = options.open("/dev/ptmx").expect("a terminal");
    let descriptor = master.as_raw_fd();
    let size: [u16; 4] = [24, columns as u16, 0, 0];
    // SAFETY: the descriptor is that of an open file; the size is four short
    // numbers; the name is copied before another call could change it.
    let slave = unsafe {
        grantpt(descriptor);
        unlockpt(descriptor);
        ioctl(descriptor, SET_WINDOW_SIZE, size.as_ptr());
        CStr::from_ptr(ptsname(descriptor))
            .to_string_lossy()
            .into_owned()
    };
    (master, options.open(slave).expect("a terminal"))
}

/// A terminal ends with an error when the last program has closed it.
fn all_of(mut master: File) -> String {
    let mut bytes = Vec::new();
    let mut part = [0; 4096];
    while let Ok(count @ 1..) = master.read(&mut part) {
        bytes.extend(&part[..count]);
    }
    String::from_utf8_lossy(&bytes).into_owned()
}
