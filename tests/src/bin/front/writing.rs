//! The text of a table, in one of the many ways to write it.

use super::wording::{spelled, Wording};
use reference::generate::Draft;
use reference::random::Random;

/// A text of the table, in one of the many ways to write it.
pub fn text(random: &mut Random, draft: &Draft, wording: &Wording) -> Vec<u8> {
    let mut writer = Writer {
        ends: random.pick(&["\n", "\r\n", "\r"]),
        random,
        text: String::new(),
    };
    if writer.random.percent(10) {
        writer.text.push('\u{FEFF}');
    }
    writer.line("table 1");
    writer.rights(wording);
    writer.carries(draft, wording);
    writer.names(draft, wording);
    let mut statements = writer.cells(draft, wording);
    let rules = writer.rules(draft, wording);
    if writer.random.percent(50) {
        // Cells among the rules; rules keep their order.
        for (i, rule) in rules.into_iter().enumerate() {
            let at = writer
                .random
                .between(i.min(statements.len()), statements.len());
            statements.insert(at, rule);
            let later = statements.split_off(at + 1);
            writer.statements(&statements);
            statements = later;
        }
        writer.statements(&statements);
    } else {
        writer.statements(&statements);
        writer.statements(&rules);
    }
    writer.text.into_bytes()
}

struct Writer<'a> {
    random: &'a mut Random,
    ends: &'static str,
    text: String,
}

/// The operations by their kinds, from 1 on.
const VERBS: [&str; 6] = [
    "enter",
    "delete",
    "create subject",
    "create object",
    "destroy subject",
    "destroy object",
];

/// A statement as its lexemes; `\n` where a rule goes on in the next line.
type Lexemes = Vec<String>;

impl Writer<'_> {
    fn line(&mut self, line: &str) {
        self.text.push_str(line);
        if self.random.percent(10) {
            self.text.push_str(" # a comment, with \"quotes\"");
        }
        self.text.push_str(self.ends);
        if self.random.percent(10) {
            let idle = self
                .random
                .pick(&["", "# a comment", "   # one behind spaces", "\t"]);
            self.text.push_str(idle);
            self.text.push_str(self.ends);
        }
    }

    fn statements(&mut self, statements: &[Lexemes]) {
        for statement in statements {
            let line = self.joined(statement);
            self.line(&line);
        }
    }

    /// Lexemes with spaces where they must be, and where they may be.
    fn joined(&mut self, lexemes: &[String]) -> String {
        let mut line = String::new();
        let mark = |text: &str| ["(", ")", ",", ":", ";", "=", ".."].contains(&text);
        let mut before = "(".to_string();
        for lexeme in lexemes {
            if lexeme == "\n" {
                line.push_str(self.ends);
                line.push_str(self.random.pick(&["  ", "\t", "    "]));
                before = "(".to_string();
                continue;
            }
            let needed = !line.is_empty() && !mark(&before) && !mark(lexeme);
            let spaces = self.random.pick(&[0, 0, 0, 1, 1, 2]);
            let spaces = if line.is_empty() {
                0
            } else {
                spaces.max(usize::from(needed))
            };
            line.push_str(&" ".repeat(spaces));
            line.push_str(lexeme);
            before.clone_from(lexeme);
        }
        line
    }

    fn word(&mut self, word: &str) -> String {
        spelled(self.random, word)
    }

    /// Items of a list with their numbers: set from the first on that is not at its place, or earlier.
    fn items(&mut self, words: &[String], order: &[usize]) -> Vec<Lexemes> {
        let mut set = self.random.percent(25);
        let mut items = Vec::new();
        for (place, &number) in order.iter().enumerate() {
            set |= number != place || self.random.percent(3);
            let mut item = vec![self.word(&words[number])];
            if set {
                item.extend(["=".to_string(), number.to_string()]);
            }
            items.push(item);
        }
        items
    }

    fn order(&mut self, count: usize) -> Vec<usize> {
        let mut order: Vec<usize> = (0..count).collect();
        if self.random.percent(25) {
            self.random.shuffle(&mut order);
        }
        order
    }

    fn rights(&mut self, wording: &Wording) {
        let order = self.order(wording.rights.len());
        let items = self.items(&wording.rights, &order);
        self.lists(items.into_iter().map(|item| ("rights", item)).collect());
    }

    /// A line for each right that carries some, in any order.
    fn carries(&mut self, draft: &Draft, wording: &Wording) {
        let mut statements = Vec::new();
        for (right, &set) in draft.carries.iter().enumerate() {
            let rights = 0..wording.rights.len();
            let mut carried: Vec<usize> = rights.filter(|one| set >> one & 1 == 1).collect();
            self.random.shuffle(&mut carried);
            let mut lexemes = vec!["carries".to_string(), self.word(&wording.rights[right])];
            for (i, &one) in carried.iter().enumerate() {
                lexemes.push(if i == 0 { ":" } else { "," }.to_string());
                lexemes.push(self.word(&wording.rights[one]));
            }
            if !carried.is_empty() {
                statements.push(lexemes);
            }
        }
        self.random.shuffle(&mut statements);
        self.statements(&statements);
    }

    /// Lists in one line or in several.
    fn lists(&mut self, items: Vec<(&str, Lexemes)>) {
        let mut statement: Lexemes = Vec::new();
        for (begin, item) in items {
            let goes_on = statement.first().is_some_and(|first| first == begin);
            if !goes_on || self.random.percent(10) {
                if !statement.is_empty() {
                    let line = self.joined(&statement);
                    self.line(&line);
                }
                statement = vec![begin.to_string()];
            }
            statement.extend(item);
        }
        if !statement.is_empty() {
            let line = self.joined(&statement);
            self.line(&line);
        }
    }

    fn names(&mut self, draft: &Draft, wording: &Wording) {
        let mut order: Vec<usize> = (0..32).filter(|&name| draft.kinds[name] > 0).collect();
        if self.random.percent(25) {
            self.random.shuffle(&mut order);
        }
        let kind = |name: usize| {
            if draft.kinds[name] == 2 {
                "subjects"
            } else {
                "objects"
            }
        };
        let ranges = self.random.percent(50) && numbered(&wording.names);
        if !ranges {
            let items = self.items(&wording.names, &order);
            let begins = order.iter().map(|&name| kind(name));
            return self.lists(begins.zip(items).collect());
        }
        let mut place = 0;
        let mut set = false;
        let mut items = Vec::new();
        for run in runs(&order, |one, next| kind(one) == kind(next)) {
            let (first, last) = (run[0], run[run.len() - 1]);
            set |= first != place;
            place += run.len();
            let mut item = self.range(&wording.names, first, last);
            if set {
                item.extend(["=".to_string(), first.to_string()]);
                if first != last {
                    item.extend(["..".to_string(), last.to_string()]);
                }
            }
            items.push((kind(first), item));
        }
        self.lists(items);
    }

    fn range(&mut self, words: &[String], first: usize, last: usize) -> Lexemes {
        let mut range = vec![self.word(&words[first])];
        if first != last {
            range.extend(["..".to_string(), self.word(&words[last])]);
        }
        range
    }

    fn cells(&mut self, draft: &Draft, wording: &Wording) -> Vec<Lexemes> {
        let mut statements = Vec::new();
        let ranges = numbered(&wording.names);
        let cell = |s: usize, o: usize| draft.cells[32 * s + o];
        for s in 0..32 {
            let filled: Vec<usize> = (0..32).filter(|&o| cell(s, o) != 0).collect();
            for run in runs(&filled, |one, next| ranges && cell(s, one) == cell(s, next)) {
                let (first, last) = (run[0], run[run.len() - 1]);
                let mut lexemes = vec!["cell".to_string(), "(".to_string()];
                lexemes.push(self.word(&wording.names[s]));
                lexemes.push(",".to_string());
                lexemes.extend(self.range(&wording.names, first, last));
                lexemes.extend([")".to_string(), ":".to_string()]);
                let rights = 0..wording.rights.len();
                let mut rights: Vec<usize> =
                    rights.filter(|r| cell(s, first) >> r & 1 == 1).collect();
                self.random.shuffle(&mut rights);
                for right in rights {
                    lexemes.push(self.word(&wording.rights[right]));
                }
                statements.push(lexemes);
            }
        }
        self.random.shuffle(&mut statements);
        statements
    }

    fn rules(&mut self, draft: &Draft, wording: &Wording) -> Vec<Lexemes> {
        let order = self.order(draft.rules.len());
        let heads = self.items(&wording.rules, &order);
        let mut statements = Vec::new();
        for (&number, head) in order.iter().zip(heads) {
            let mut lexemes = vec!["rule".to_string()];
            lexemes.extend(head);
            lexemes.extend(self.rule(&draft.rules[number], &wording.blanks[number], wording));
            statements.push(lexemes);
        }
        statements
    }

    /// A rule from its section, with line ends between its parts.
    fn rule(&mut self, section: &[u8], blanks: &[String], wording: &Wording) -> Lexemes {
        let broken = self.random.percent(30);
        let mut lexemes = vec!["(".to_string()];
        for (i, blank) in blanks.iter().enumerate() {
            if i > 0 {
                lexemes.push(",".to_string());
            }
            lexemes.push(self.word(blank));
        }
        lexemes.extend([")".to_string(), ":".to_string()]);
        let (conditions, steps) = section[3..].split_at(3 * section[1] as usize);
        for (i, condition) in conditions.chunks(3).enumerate() {
            self.perhaps(broken, &mut lexemes);
            lexemes.push(if i == 0 { "if" } else { "and" }.to_string());
            lexemes.push(self.word(&wording.rights[condition[0] as usize]));
            lexemes.push("in".to_string());
            lexemes.extend(self.pair(blanks, condition[1], condition[2]));
        }
        for (i, step) in steps.chunks(4).enumerate() {
            if i > 0 {
                lexemes.push(";".to_string());
            }
            self.perhaps(broken, &mut lexemes);
            lexemes.extend(self.step(step, blanks, wording));
        }
        lexemes
    }

    fn step(&mut self, step: &[u8], blanks: &[String], wording: &Wording) -> Lexemes {
        let verb = VERBS[step[0] as usize - 1].split(' ');
        let mut lexemes: Lexemes = verb.map(String::from).collect();
        if step[0] > 2 {
            lexemes.push(self.word(&blanks[step[2] as usize]));
            return lexemes;
        }
        lexemes.push(self.word(&wording.rights[step[1] as usize]));
        lexemes.push(if step[0] == 1 { "into" } else { "from" }.to_string());
        lexemes.extend(self.pair(blanks, step[2], step[3]));
        lexemes
    }

    fn pair(&mut self, blanks: &[String], subject: u8, object: u8) -> Lexemes {
        let subject = self.word(&blanks[subject as usize]);
        let object = self.word(&blanks[object as usize]);
        ["(", &subject, ",", &object, ")"].map(String::from).into()
    }

    fn perhaps(&mut self, broken: bool, lexemes: &mut Lexemes) {
        if broken && self.random.percent(60) {
            lexemes.push("\n".to_string());
        }
    }
}

/// Whether the names are one stem with numbers that go up by one.
fn numbered(names: &[String]) -> bool {
    let digits = |word: &str| {
        word.trim_start_matches(|c: char| !c.is_ascii_digit())
            .to_string()
    };
    let stem = |word: &str| {
        word.trim_end_matches(|c: char| c.is_ascii_digit())
            .to_string()
    };
    let first: usize = digits(&names[0]).parse().unwrap_or(usize::MAX / 2);
    let is = |(i, word): (usize, &String)| {
        !stem(word).is_empty()
            && stem(word) == stem(&names[0])
            && format!("{}{}", stem(word), first + i) == *word
    };
    names.iter().enumerate().all(is)
}

/// Stretches of numbers that go up by one and belong together.
fn runs(numbers: &[usize], together: impl Fn(usize, usize) -> bool) -> Vec<Vec<usize>> {
    let mut runs: Vec<Vec<usize>> = Vec::new();
    for &number in numbers {
        match runs.last_mut() {
            Some(run) if run[run.len() - 1] + 1 == number && together(number - 1, number) => {
                run.push(number);
            }
            _ => runs.push(vec![number]),
        }
    }
    runs
}
