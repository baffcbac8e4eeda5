//! Compares the verified library's judge with the reference judge on tables of
//! up to 30 names whose judging takes many rounds.
//! Arguments: the seed, and the number of tables (2,000) of each of two groups; those
//! of the families of slow files are a quarter of all.

#[path = "../boundary/judge.rs"]
mod boundary_judge;
#[path = "../boundary/replay.rs"]
mod boundary_replay;

use reference::file::{self, NAMES};
use reference::generate::{busy_chain, chain, Draft};
use reference::judge::{judge, judge_trying, Account, UNSAFE};
use reference::random::Random;
use reference::report::{Arguments, Group, Report};
use reference::rounds::Tried;
use reference::second;
use reference::slow::{slow, FAMILIES};
use reference::verdict::{compare, compare_trying, needed, Library, Question};

/// What the tables of a group came to.
#[derive(Default)]
struct Mix {
    safe: u64,
    by_rounds: u64,
    by_closing: u64,
    rounds: u64,
    most: u64,
    steps: u64,
    spare: u64,
}

impl Mix {
    fn add(&mut self, account: &Account) {
        match (account.code, account.closing) {
            (UNSAFE, true) => self.by_closing += 1,
            (UNSAFE, false) => self.by_rounds += 1,
            _ => self.safe += 1,
        }
        self.rounds += account.rounds;
        self.most = self.most.max(account.rounds);
        self.steps += account.steps;
        self.spare += account.spare;
    }

    /// Prints it, and demands that it is one: so many rounds and steps a table.
    fn demand(&self, group: &mut Group, tables: u64, per_table: [u64; 2]) {
        let Mix {
            safe,
            by_rounds,
            by_closing,
            rounds,
            most,
            steps,
            spare,
        } = *self;
        println!(
            "  safe {safe}, unsafe in a round {by_rounds}, unsafe by the closing search {by_closing}"
        );
        println!(
            "  {rounds} rounds, at most {most}; {steps} steps, {spare} of rules with spare blanks"
        );
        // Of few tables no mix can be asked.
        if tables < 200 {
            return;
        }
        for (count, what) in [
            (safe, "safe"),
            (by_rounds, "unsafe in a round"),
            (by_closing, "unsafe by the closing search"),
        ] {
            group.demand(10 * count >= tables, || format!("only {count} {what}"));
        }
        let [few_rounds, few_steps] = per_table;
        group.demand(rounds >= few_rounds * tables, || {
            format!("only {rounds} rounds")
        });
        group.demand(steps >= few_steps * tables, || {
            format!("only {steps} steps")
        });
        group.demand(most >= 100, || format!("at most {most} rounds"));
        group.demand(5 * spare >= steps, || {
            format!("only {spare} of {steps} steps have spare blanks")
        });
    }
}

/// How many places the loops of document 01 go through in a round.
fn places(file: &[u8]) -> u64 {
    let contents = file::read(file).expect("an accepted file");
    let rules = contents.rules.iter();
    let named = rules.map(|rule| (rule.blanks - rule.spare.len()) as u32);
    named.map(|blanks| (NAMES as u64).pow(blanks)).sum()
}

/// Whether the reference judge says the same when it tries all places.
fn tries_enough(file: &[u8], right: u8) -> bool {
    let mut all = vec![0; needed(file)];
    let mut fitting = all.clone();
    let account = judge(file, right, &mut all);
    account == judge_trying(Tried::Fitting, file, right, &[], &mut fitting) && all == fitting
}

/// Tables of the families of slow files. The reference judge leaves out places that
/// a condition refuses: all of them would take minutes. Where they are few enough
/// both ways are gone.
fn compare_slow(group: &mut Group, library: Library, random: &mut Random, tables: u64) {
    let mut mix = Mix::default();
    let (mut seen, mut long, mut plain) = ([0; FAMILIES.len()], 0, 0);
    while group.inputs < tables {
        let (draft, right, family) = slow(random);
        let file = draft.file();
        let question = Question::new(&file, right);
        let length = needed(&file);
        let (account, _) = compare_trying(Tried::Fitting, group, library, random, question, length);
        mix.add(&account);
        seen[family] += 1;
        long += u64::from(account.rounds >= 10);
        if account.rounds * places(&file) <= 2_500_000 {
            plain += 1;
            group.demand(tries_enough(&file, right), || {
                format!("places left out: {}", question.shown())
            });
        }
    }
    for ((name, _), count) in FAMILIES.iter().zip(seen) {
        print!("  {name} {count}");
    }
    println!("\n  {long} of 10 rounds or more; all places tried of {plain}");
    mix.demand(group, tables, [10, 40]);
    if tables >= 200 {
        for ((name, _), count) in FAMILIES.iter().zip(seen) {
            group.demand(20 * count >= tables, || format!("only {count} {name}"));
        }
        group.demand(3 * long >= tables, || {
            format!("only {long} of 10 rounds or more")
        });
        group.demand(20 * plain >= tables, || {
            format!("all places tried of only {plain}")
        });
    }
}

fn main() {
    let arguments = Arguments::read("rounds");
    let library = if arguments.own {
        Library {
            judge: |asked, buffer| second::judge(asked.file, asked.right, buffer),
            replay: second::replay,
        }
    } else {
        Library {
            judge: |asked, buffer| boundary_judge::judge(asked.file, asked.right, buffer),
            replay: boundary_replay::replay,
        }
    };
    let tables = arguments.number.unwrap_or(2_000);
    let mut random = Random::new(arguments.seed);
    let random = &mut random;
    let mut report = Report::default();

    let mut compared = |what: &str, table: fn(&mut Random) -> (Draft, u8), per_table: [u64; 2]| {
        report.group(what, tables, |group| {
            let mut mix = Mix::default();
            while group.inputs < tables {
                let (draft, right) = table(random);
                let file = draft.file();
                let question = Question::new(&file, right);
                let (account, _) = compare(group, library, random, question, needed(&file));
                mix.add(&account);
            }
            mix.demand(group, tables, per_table);
        });
    };
    compared("tables with many rounds", chain, [30, 40]);
    compared(
        "tables with many rounds, and many steps in some",
        busy_chain,
        [8, 100],
    );
    // The second implementation tries all places, which takes hours.
    if !arguments.own {
        let tables = tables.div_ceil(3) * 2;
        report.group("tables of the families of slow files", tables, |group| {
            compare_slow(group, library, random, tables);
        });
    }

    report.finish();
}
