//! The desk program: the right and a file in, a printed verdict out.

use crate::file::{self, RIGHTS};
use crate::judge::{judge, SAFE, UNSAFE};

/// Long enough for every accepted file of at most 30 names, with 30 subjects:
/// 59,540 bytes.
pub const BUFFER: usize = 5 * (RIGHTS as usize * 31 * 32 + 4);

pub fn desk(input: &[u8]) -> String {
    let Some((&right, bytes)) = input.split_first() else {
        return "REFUSED 1\n".to_string();
    };
    let mut buffer = vec![0; BUFFER];
    let account = judge(bytes, right, &mut buffer);
    match account.code {
        SAFE => format!("SAFE {}\n", account.steps),
        UNSAFE => {
            let rules = file::read(bytes).expect("judged").rules;
            let mut listing = format!("UNSAFE {}\n", account.steps);
            for step in buffer.chunks_exact(5).take(account.steps as usize) {
                listing += &step[0].to_string();
                for actual in &step[1..1 + rules[step[0] as usize].blanks] {
                    listing += &format!(" {actual}");
                }
                listing += "\n";
            }
            listing
        }
        refusal => format!("REFUSED {refusal}\n"),
    }
}
