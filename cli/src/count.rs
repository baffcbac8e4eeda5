//! Numbers with their nouns.

/// `1 step`, `2 steps`.
pub fn count(number: usize, noun: &str) -> String {
    match number {
        1 => format!("1 {noun}"),
        n => format!("{n} {noun}s"),
    }
}

/// `own, read and print`, all of them.
pub fn all_of(words: &[String]) -> String {
    match words {
        [most @ .., last] if !most.is_empty() => format!("{} and {last}", most.join(", ")),
        _ => words.concat(),
    }
}

/// `own, read or print`; of many words the first few.
pub fn one_of(words: &[String]) -> String {
    const FEW: usize = 10;
    match words {
        [] => String::new(),
        [one] => one.clone(),
        [most @ .., last] if most.len() < FEW => format!("{} or {last}", most.join(", ")),
        many => format!("{}, .. (of {})", many[..FEW].join(", "), many.len()),
    }
}
