//! A program run from one system call to the next, by the system's own tracing
//! (ptrace, as on x86-64), so that it can be killed before and behind each of
//! its calls, and made to fail in each.

use std::ffi::{c_int, c_long};
use std::fs::{self, File};
use std::io::{self, Read};
use std::os::unix::fs::FileExt;
use std::os::unix::process::CommandExt;
use std::path::PathBuf;
use std::process::{Child, Command, Stdio};

extern "C" {
    fn ptrace(request: c_int, pid: c_int, address: usize, data: usize) -> c_long;
    fn waitpid(pid: c_int, status: *mut c_int, options: c_int) -> c_int;
    fn kill(pid: c_int, signal: c_int) -> c_int;
}

const TRACE_ME: c_int = 0;
const GET_REGISTERS: c_int = 12;
const SET_REGISTERS: c_int = 13;
const TO_NEXT_CALL: c_int = 24;
const SET_OPTIONS: c_int = 0x4200;
/// Calls are told from signals; the program ends with us.
const OPTIONS: usize = 1 | 0x10_0000;
const KILL: c_int = 9;
const TRAP: c_int = 5;
const AT_CALL: c_int = TRAP | 0x80;

/// The registers, and which of them hold what.
type Registers = [u64; 27];
const RESULT: usize = 10;
const CALL: usize = 15;
/// The first three arguments.
const ARGUMENTS: [usize; 3] = [14, 13, 12];

/// The program stands before a system call or behind it.
pub struct Stop {
    /// Counted from 1, over both.
    pub number: usize,
    pub before: bool,
    pub call: u64,
    pub arguments: [u64; 3],
    pid: c_int,
}

impl Stop {
    /// The path of an open file.
    pub fn opened(&self, file: u64) -> PathBuf {
        fs::read_link(format!("/proc/{}/fd/{file}", self.pid)).unwrap_or_default()
    }

    /// A string in the program's memory.
    pub fn string(&self, address: u64) -> String {
        let mut bytes = [0; 4096];
        let memory = File::open(format!("/proc/{}/mem", self.pid));
        let length = memory.and_then(|memory| memory.read_at(&mut bytes, address));
        let bytes = &bytes[..length.unwrap_or(0)];
        let text = bytes.split(|&byte| byte == 0).next().unwrap_or_default();
        String::from_utf8_lossy(text).into_owned()
    }
}

pub enum Then {
    GoOn,
    Kill,
    /// The call is not done, and gives this error. Before a call only.
    Fail(i32),
}

pub struct Ended {
    /// None where a signal ended it.
    pub status: Option<i32>,
    pub killed: bool,
    pub out: String,
    pub err: String,
}

/// Runs the program, and asks at each stop what to do.
pub fn traced(command: &mut Command, mut at: impl FnMut(&Stop) -> Then) -> io::Result<Ended> {
    let mut child = start(command)?;
    let mut traced = Traced {
        pid: child.id() as c_int,
        stops: 0,
        failing: None,
        killed: false,
    };
    let pid = traced.pid;
    let mut status = wait(pid)?;
    // It stands at its first instruction.
    // SAFETY: a child of ours that stands.
    unsafe { ptrace(SET_OPTIONS, pid, 0, OPTIONS) };
    while status & 0xff == 0x7f {
        let why = (status >> 8) & 0xff;
        if why == AT_CALL {
            traced.at_call(&mut at)?;
        }
        let signal = match why {
            AT_CALL | TRAP => 0,
            signal => signal as usize,
        };
        // SAFETY: a child of ours that stands, or was killed, which is no harm.
        unsafe { ptrace(TO_NEXT_CALL, pid, 0, signal) };
        status = wait(pid)?;
    }
    let (mut out, mut err) = (String::new(), String::new());
    child
        .stdout
        .take()
        .map(|mut from| from.read_to_string(&mut out));
    child
        .stderr
        .take()
        .map(|mut from| from.read_to_string(&mut err));
    Ok(Ended {
        status: (status & 0x7f == 0).then_some((status >> 8) & 0xff),
        killed: traced.killed,
        out,
        err,
    })
}

/// It stops at its first instruction.
fn start(command: &mut Command) -> io::Result<Child> {
    command
        .stdin(Stdio::null())
        .stdout(Stdio::piped())
        .stderr(Stdio::piped());
    // SAFETY: between fork and exec one call of the system's is made.
    unsafe {
        command.pre_exec(|| match ptrace(TRACE_ME, 0, 0, 0) {
            0 => Ok(()),
            _ => Err(io::Error::last_os_error()),
        })
    };
    command.spawn()
}

struct Traced {
    pid: c_int,
    stops: usize,
    /// The error of the call that is under way.
    failing: Option<i32>,
    killed: bool,
}

impl Traced {
    fn at_call(&mut self, at: &mut impl FnMut(&Stop) -> Then) -> io::Result<()> {
        self.stops += 1;
        let before = self.stops % 2 == 1;
        let mut registers = registers(self.pid)?;
        if let Some(error) = self.failing.take() {
            registers[RESULT] = (-i64::from(error)) as u64;
            set_registers(self.pid, &registers)?;
        }
        let stop = Stop {
            number: self.stops,
            before,
            call: registers[CALL],
            arguments: ARGUMENTS.map(|place| registers[place]),
            pid: self.pid,
        };
        match at(&stop) {
            Then::GoOn => {}
            Then::Kill => {
                self.killed = true;
                // SAFETY: a child of ours.
                unsafe { kill(self.pid, KILL) };
            }
            Then::Fail(error) => {
                assert!(before, "a call fails before it is done");
                self.failing = Some(error);
                registers[CALL] = u64::MAX;
                set_registers(self.pid, &registers)?;
            }
        }
        Ok(())
    }
}

fn wait(pid: c_int) -> io::Result<c_int> {
    let mut status = 0;
    // SAFETY: a number of our own.
    match unsafe { waitpid(pid, &mut status, 0) } {
        one if one == pid => Ok(status),
        _ => Err(io::Error::last_os_error()),
    }
}

fn registers(pid: c_int) -> io::Result<Registers> {
    let mut registers = [0; 27];
    // SAFETY: room for all registers.
    match unsafe { ptrace(GET_REGISTERS, pid, 0, registers.as_mut_ptr() as usize) } {
        0 => Ok(registers),
        _ => Err(io::Error::last_os_error()),
    }
}

fn set_registers(pid: c_int, registers: &Registers) -> io::Result<()> {
    // SAFETY: all registers.
    match unsafe { ptrace(SET_REGISTERS, pid, 0, registers.as_ptr() as usize) } {
        0 => Ok(()),
        _ => Err(io::Error::last_os_error()),
    }
}

/// Whether a program may be traced here.
pub fn may_trace() -> bool {
    let mut stops = 0;
    let ended = traced(&mut Command::new("true"), |_| {
        stops += 1;
        Then::GoOn
    });
    ended.is_ok_and(|ended| ended.status == Some(0)) && stops > 0
}
