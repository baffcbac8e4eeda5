//! One call of the proved library. `press judge`: a byte, the right, and then a
//! file on standard input. `press part`: the same, asked without anybody left
//! out. `press need`: a byte, the number of cells, then the cells and the file.
//! `press sheet`: a byte, the number of rights, then the rights and the file;
//! `press singles`: the same by as many calls of the judge. It prints the answers
//! and their numbers of steps.

use std::io::{self, Read};
use tugcaphi::library::{judge, judge_part, need, sheet, Judgement, Need};
use tugcaphi::limits::{BUFFER_BYTES, NEEDED_BYTES, SHEET_RIGHTS};

fn main() {
    let mut input = Vec::new();
    io::stdin().read_to_end(&mut input).expect("an input");
    let mut buffer = vec![0; BUFFER_BYTES * SHEET_RIGHTS];
    let (&first, rest) = input.split_first().unwrap_or((&0, &[]));
    let word = std::env::args().nth(1).unwrap_or_default();
    let text = match word.as_str() {
        "need" => {
            let (cells, file) = rest.split_at((NEEDED_BYTES * usize::from(first)).min(rest.len()));
            match need(file, cells, &mut buffer) {
                Need::Held(steps) => format!("HELD {steps}"),
                Need::Never(steps) => format!("NEVER {steps}"),
                Need::Refused(refusal) => format!("REFUSED {refusal}"),
            }
        }
        "sheet" | "singles" => {
            let (rights, file) = rest.split_at(usize::from(first).min(rest.len()));
            let judgements = match word.as_str() {
                "sheet" => sheet(file, rights, &mut buffer),
                _ => singles(file, rights, &mut buffer),
            };
            let told: Vec<String> = judgements.into_iter().map(judged).collect();
            told.join(", ")
        }
        "part" => judged(judge_part(rest, first, &[], &mut buffer)),
        _ => judged(judge(rest, first, &mut buffer)),
    };
    println!("{text}");
}

/// Each right by a call of its own, with a buffer of its own.
fn singles(file: &[u8], rights: &[u8], buffer: &mut [u8]) -> Vec<Judgement> {
    let parts = buffer.chunks_exact_mut(BUFFER_BYTES);
    let ask = |(&right, part): (&u8, &mut [u8])| judge(file, right, part);
    rights.iter().zip(parts).map(ask).collect()
}

fn judged(judgement: Judgement) -> String {
    match judgement {
        Judgement::Safe(steps) => format!("SAFE {steps}"),
        Judgement::Unsafe(steps) => format!("UNSAFE {steps}"),
        Judgement::Refused(refusal) => format!("REFUSED {refusal}"),
    }
}
