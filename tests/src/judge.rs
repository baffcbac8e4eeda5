//! The leak judge: the rounds until the right is entered, then the closing
//! search.

use crate::file::{self, Contents, Rule, Step, NAMES};
use crate::machine::{run, AccessMatrix, Bounded};
use crate::rounds::{all_names, refusal, Listing, Places, Rounds, Tried};

pub const SAFE: u8 = 0;
pub const UNSAFE: u8 = 255;

/// The answer, and how the judge came to it.
#[derive(Clone, Copy, Debug, PartialEq, Eq)]
pub struct Account {
    /// `SAFE`, `UNSAFE` or the refusal.
    pub code: u8,
    pub steps: u64,
    /// Steps of rules with spare blanks among them.
    pub spare: u64,
    pub rounds: u64,
    /// Unsafe by a delete and an enter after the rounds.
    pub closing: bool,
}

pub fn judge(file: &[u8], right: u8, buffer: &mut [u8]) -> Account {
    judge_part(file, right, &[], buffer)
}

/// The judge of the part that stays without the trusted names (document 02,
/// C-15), a byte each.
pub fn judge_part(file: &[u8], right: u8, trusted: &[u8], buffer: &mut [u8]) -> Account {
    judge_trying(Tried::All, file, right, trusted, buffer)
}

/// The same with these places tried in the rounds.
pub fn judge_trying(
    tried: Tried,
    file: &[u8],
    right: u8,
    trusted: &[u8],
    buffer: &mut [u8],
) -> Account {
    match asked(file, right, trusted, buffer.len()) {
        Ok(part) => answer(tried, &part, right, trusted, buffer),
        Err(refusal) => Account {
            code: refusal,
            steps: 0,
            spare: 0,
            rounds: 0,
            closing: false,
        },
    }
}

/// The part, or the refusal: the file's, 21, then 22 to 24 of the whole, 42.
fn asked(file: &[u8], right: u8, trusted: &[u8], length: usize) -> Result<Contents, u8> {
    let mut contents = file::read(file)?;
    if right >= contents.rights {
        return Err(21);
    }
    refusal(&contents, length)?;
    for (place, &name) in trusted.iter().enumerate() {
        let there = usize::from(name) < NAMES && contents.matrix.exists(u64::from(name));
        if !there || trusted[..place].contains(&name) {
            return Err(42);
        }
    }
    contents.matrix = contents.matrix.without(trusted);
    Ok(contents)
}

fn answer(tried: Tried, part: &Contents, right: u8, trusted: &[u8], buffer: &mut [u8]) -> Account {
    let mut listing = Listing::new(&part.rules, buffer);
    // Absent in the whole is absent in the part, and not listed.
    let rounds = Rounds::trying(tried, part, trusted, &mut listing, |done| {
        done.leaked >> right & 1 == 1
    });
    let closing = !rounds.ended && close(part, &rounds.state, right, &mut listing);
    Account {
        code: if rounds.ended || closing {
            UNSAFE
        } else {
            SAFE
        },
        steps: listing.steps,
        spare: listing.spare,
        rounds: rounds.count,
        closing,
    }
}

/// For each start cell holding the right: its delete, and its second enter.
fn close(contents: &Contents, state: &Bounded, right: u8, listing: &mut Listing) -> bool {
    let rules = &contents.rules;
    for s in 0..NAMES as u64 {
        for o in 0..NAMES as u64 {
            if contents.matrix.cell(s, o) >> right & 1 == 0 {
                continue;
            }
            let delete = first_allowed(state, rules, (s, o), |step| match *step {
                Step::Delete {
                    right: deleted,
                    subject,
                    object,
                } if deleted == right => Some((subject, object)),
                _ => None,
            });
            // The right is taken out of this one cell only.
            let mut without = state.clone();
            without.set_cell(s, o, state.cell(s, o) & !(1 << right));
            let enter = first_allowed(&without, rules, (s, o), |step| match *step {
                Step::Enter {
                    right: entered,
                    subject,
                    object,
                } if entered == right => Some((subject, object)),
                _ => None,
            });
            if let (Some((rule, actuals)), Some((second_rule, second_actuals))) = (delete, enter) {
                listing.write(rule, actuals);
                listing.write(second_rule, second_actuals);
                return true;
            }
        }
    }
    false
}

/// The first allowed rule run, rules in order and then actuals, whose step
/// `wanted` accepts and whose two blanks are this cell.
fn first_allowed(
    state: &Bounded,
    rules: &[Rule],
    cell: (u64, u64),
    wanted: impl Fn(&Step) -> Option<(usize, usize)>,
) -> Option<(usize, [u64; 4])> {
    for (number, rule) in rules.iter().enumerate() {
        let Some((subject, object)) = wanted(&rule.steps[0]) else {
            continue;
        };
        // Only the places at this cell; the order among them stays.
        let mut choices = all_names(rule);
        choices[subject].retain(|&name| name == cell.0);
        choices[object].retain(|&name| name == cell.1);
        for actuals in Places::new(choices) {
            if run(state, rules, number as u64, actuals).is_ok() {
                return Some((number, actuals));
            }
        }
    }
    None
}
