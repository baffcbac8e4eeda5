//! Words for the rights, names, rules and blanks of a file, at random, and their
//! spelling in a table.

use reference::generate::Draft;
use reference::random::Random;
use std::collections::BTreeSet;

/// The words of a table, by number.
#[derive(Clone, Debug)]
pub struct Wording {
    pub rights: Vec<String>,
    pub names: Vec<String>,
    pub rules: Vec<String>,
    pub blanks: Vec<Vec<String>>,
}

const RESERVED: &str = "table rights subjects objects cell rule if and in enter into delete from \
                        create destroy subject object";

/// A word of the format's own at the beginning of a line alone.
const BEGINS: &str = "carries";

impl Wording {
    /// Words of all sorts. Names are numbered ones now and then, as for ranges.
    pub fn any(random: &mut Random, draft: &Draft) -> Wording {
        let mut pool = Pool::default();
        let rights = (0..draft.rights).map(|_| pool.word(random)).collect();
        let names = match random.below(3) {
            0 => {
                let stem = pool.word(random).replace(|c: char| c.is_ascii_digit(), "x");
                let first = random.below(12);
                (0..32)
                    .map(|i| pool.take(format!("{stem}{}", first + i)))
                    .collect()
            }
            1 => (0..32)
                .map(|number: usize| match random.percent(20) {
                    true => pool.take(number.to_string()),
                    false => pool.word(random),
                })
                .collect(),
            _ => (0..32).map(|_| pool.word(random)).collect(),
        };
        let rules = draft.rules.iter().map(|_| pool.word(random)).collect();
        let blanks = draft
            .rules
            .iter()
            .map(|rule| {
                // Blanks are of their rule alone, so several rules may have the same.
                let mut blanks = pool.clone();
                (0..rule[0]).map(|_| blanks.word(random)).collect()
            })
            .collect();
        Wording {
            rights,
            names,
            rules,
            blanks,
        }
    }
}

/// The words that are taken, in small letters.
#[derive(Clone, Default)]
struct Pool {
    taken: BTreeSet<String>,
}

impl Pool {
    fn word(&mut self, random: &mut Random) -> String {
        loop {
            let word = spell(random);
            let digits = word.chars().all(|c| c.is_ascii_digit());
            if !digits && self.taken.insert(word.to_lowercase()) {
                return word;
            }
        }
    }

    fn take(&mut self, word: String) -> String {
        self.taken.insert(word.to_lowercase());
        word
    }
}

const LETTERS: &str = "abcdefghijklmnopqrstuvwxyzABCDXYZéüñøžßΩжあ朱";
const OTHERS: &str = " ()#,:;=\"\\.<>&'-_/+0123456789";

fn one(random: &mut Random, of: &str) -> char {
    let characters: Vec<char> = of.chars().collect();
    random.pick(&characters)
}

fn spell(random: &mut Random) -> String {
    let word = match random.below(10) {
        0 => {
            let reserved = RESERVED.split_whitespace();
            let own: Vec<&str> = reserved.chain([BEGINS; 4]).collect();
            random.pick(&own).to_string()
        }
        1..=3 => anything(random),
        4 => format!("{}-{}", one(random, LETTERS), one(random, LETTERS)),
        _ => {
            let count = random.between(1, 9);
            let mut word: String = (0..count).map(|_| one(random, LETTERS)).collect();
            if random.percent(20) {
                word.push_str(&random.below(40).to_string());
            }
            word
        }
    };
    match word.is_empty() {
        true => spell(random),
        false => word,
    }
}

/// A word of any characters, as long as its spaces can be told apart.
fn anything(random: &mut Random) -> String {
    let mut word = String::new();
    for _ in 0..random.between(1, 12) {
        let of = random.pick(&[LETTERS, OTHERS]);
        word.push(one(random, of));
    }
    while word.contains("  ") {
        word = word.replace("  ", " ");
    }
    word.trim().to_string()
}

/// Whether a word may stand without quotes, by docs/TABLES.md.
fn bare(word: &str) -> bool {
    let characters: Vec<char> = word.chars().collect();
    let inner = |i: usize| {
        let between = i > 0
            && i + 1 < characters.len()
            && characters[i - 1].is_alphabetic()
            && characters[i + 1].is_alphabetic();
        match characters[i] {
            '-' => between,
            c => c.is_alphanumeric() || c == '_',
        }
    };
    characters[0].is_alphabetic()
        && (0..characters.len()).all(inner)
        && !RESERVED.split_whitespace().any(|reserved| reserved == word)
}

/// A word as a table has it; quotes that are not needed come now and then.
pub fn spelled(random: &mut Random, word: &str) -> String {
    if bare(word) && !random.percent(15) {
        return word.to_string();
    }
    let mut quoted = String::from("\"");
    for character in word.chars() {
        if character == '"' || character == '\\' {
            quoted.push('\\');
        }
        quoted.push(character);
    }
    quoted + "\""
}
