//! Judging in a child process, which a timer of processor time ends: a call of the
//! library cannot be interrupted.

use crate::mutations::Asked;
use std::env;
use std::io::{self, Read, Write};
use std::process::{Child, ChildStdin, ChildStdout, Command, Stdio};
use std::time::Duration;
use tugcaphi::library::{judge, Judgement};
use tugcaphi::limits::BUFFER_BYTES;

/// No call takes more processor time.
pub const LIMIT: Duration = Duration::from_secs(5);
/// The argument by which the program is such a child.
pub const CHILD: &str = "judge";

/// A number of seconds and one of smaller parts, as C has them.
#[repr(C)]
struct Span {
    seconds: i64,
    parts: i64,
}

/// What a timer has left, behind its interval.
#[repr(C)]
struct Timer {
    interval: Span,
    left: Span,
}

/// Linux's numbers for the processor time of the process.
const PROCESS_CLOCK: i32 = 2;
const PROCESS_TIMER: i32 = 2;

extern "C" {
    fn clock_gettime(clock: i32, time: *mut Span) -> i32;
    fn setitimer(which: i32, new: *const Timer, old: *mut Timer) -> i32;
}

fn processor_time() -> Duration {
    let mut time = Span {
        seconds: 0,
        parts: 0,
    };
    // SAFETY: the time is one of our own.
    unsafe { clock_gettime(PROCESS_CLOCK, &mut time) };
    Duration::new(time.seconds as u64, time.parts as u32)
}

/// From now on the process has so much processor time; then a signal ends it.
fn end_after(limit: Duration) {
    let span = |time: Duration| Span {
        seconds: time.as_secs() as i64,
        parts: i64::from(time.subsec_micros()),
    };
    let timer = Timer {
        interval: span(Duration::ZERO),
        left: span(limit),
    };
    // SAFETY: the timer is only read, and the old one is not asked for.
    unsafe { setitimer(PROCESS_TIMER, &timer, std::ptr::null_mut()) };
}

/// What became of a candidate. The time is the better one of two calls, or that of one
/// call where that is short enough to be of no interest.
#[derive(Clone, Copy)]
pub enum Cost {
    Refused,
    Stopped,
    Judged { time: Duration, steps: u64 },
}

/// A question: so many nanoseconds are of no interest, the right, the file.
fn question((draft, right): &Asked, dull: Duration) -> Vec<u8> {
    let mut bytes = (dull.as_nanos() as u64).to_le_bytes().to_vec();
    bytes.push(*right);
    bytes.extend(draft.file());
    let length = (bytes.len() as u64).to_le_bytes();
    [length.to_vec(), bytes].concat()
}

/// An answer: 1 where it was judged, nanoseconds, steps.
const ANSWER: usize = 17;

fn number(bytes: &[u8]) -> u64 {
    u64::from_le_bytes(bytes[..8].try_into().expect("eight bytes"))
}

fn answer(question: &[u8], buffer: &mut [u8]) -> [u8; ANSWER] {
    let dull = Duration::from_nanos(number(question));
    let (right, file) = (question[8], &question[9..]);
    let mut best = LIMIT;
    let mut steps = 0;
    for _ in 0..2 {
        end_after(LIMIT);
        let begin = processor_time();
        let judgement = judge(file, right, buffer);
        best = best.min(processor_time() - begin);
        if let Judgement::Refused(_) = judgement {
            return [0; ANSWER];
        }
        steps = judgement.steps();
        if best <= dull {
            break;
        }
    }
    let mut bytes = [1; ANSWER];
    bytes[1..9].copy_from_slice(&(best.as_nanos() as u64).to_le_bytes());
    bytes[9..].copy_from_slice(&steps.to_le_bytes());
    bytes
}

/// The child: questions on standard input, answers on standard output.
pub fn child() -> io::Result<()> {
    let (mut from, mut to) = (io::stdin().lock(), io::stdout().lock());
    let mut buffer = vec![0; BUFFER_BYTES];
    let mut length = [0; 8];
    while from.read_exact(&mut length).is_ok() {
        let mut question = vec![0; number(&length) as usize];
        from.read_exact(&mut question)?;
        to.write_all(&answer(&question, &mut buffer))?;
        to.flush()?;
    }
    Ok(())
}

/// A child at work.
pub struct Judge {
    process: Child,
    to: ChildStdin,
    from: ChildStdout,
}

impl Judge {
    pub fn start() -> io::Result<Judge> {
        let mut process = Command::new(env::current_exe()?)
            .arg(CHILD)
            .stdin(Stdio::piped())
            .stdout(Stdio::piped())
            .spawn()?;
        let to = process.stdin.take().expect("piped");
        let from = process.stdout.take().expect("piped");
        Ok(Judge { process, to, from })
    }

    /// The candidate's cost. A child that was ended gives way to a new one.
    pub fn cost(&mut self, candidate: &Asked, dull: Duration) -> io::Result<Cost> {
        let mut bytes = [0; ANSWER];
        self.to.write_all(&question(candidate, dull))?;
        if self.from.read_exact(&mut bytes).is_err() {
            self.process.wait()?;
            *self = Judge::start()?;
            return Ok(Cost::Stopped);
        }
        Ok(match bytes[0] {
            0 => Cost::Refused,
            _ => Cost::Judged {
                time: Duration::from_nanos(number(&bytes[1..])),
                steps: number(&bytes[9..]),
            },
        })
    }
}
