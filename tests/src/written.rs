//! What holds of the steps that a call writes, whatever it was asked: the bound
//! on their number, the bytes behind them, and 0 in spare blanks.

use crate::file::{self, Contents};
use crate::generate::job_number;
use crate::random::Random;
use crate::rounds::most_steps;

/// The steps at the front of a buffer.
pub struct Written<'a> {
    /// What the file says that they were written for.
    pub contents: Contents,
    pub trace: &'a [u8],
    /// The same steps with other bytes in spare blanks.
    pub numbered: Vec<u8>,
}

impl Written<'_> {
    pub fn new<'a>(
        random: &mut Random,
        file: &[u8],
        steps: u64,
        before: &[u8],
        buffer: &'a [u8],
    ) -> Result<Written<'a>, String> {
        let contents = file::read(file).map_err(|refusal| format!("a file of {refusal}"))?;
        if steps > most_steps(&contents) as u64 || 5 * steps > buffer.len() as u64 {
            return Err("more steps than the bound".to_string());
        }
        let (trace, behind) = buffer.split_at(5 * steps as usize);
        if behind != &before[trace.len()..] {
            return Err("bytes behind the steps changed".to_string());
        }
        Ok(Written {
            numbered: with_job_numbers(random, &contents, trace)?,
            contents,
            trace,
        })
    }
}

/// A refused call gives no steps and leaves the buffer.
pub fn nothing(steps: u64, before: &[u8], buffer: &[u8]) -> Result<(), String> {
    match steps == 0 && before == buffer {
        true => Ok(()),
        false => Err("refused, yet steps or bytes".to_string()),
    }
}

/// The steps with other numbers in spare blanks, which must be 0.
fn with_job_numbers(
    random: &mut Random,
    contents: &Contents,
    trace: &[u8],
) -> Result<Vec<u8>, String> {
    let mut numbered = trace.to_vec();
    for step in numbered.chunks_exact_mut(5) {
        let rule = contents.rules.get(step[0] as usize);
        let rule = rule.ok_or_else(|| format!("no rule of the step {step:?}"))?;
        for &blank in &rule.spare {
            if step[1 + blank] != 0 {
                return Err(format!("not 0 in a spare blank of {step:?}"));
            }
            step[1 + blank] = job_number(random);
        }
    }
    Ok(numbered)
}
