//! What the judge and its like refuse besides their lists: wrong files, and 22,
//! 23 and 24, planted by chance.

use crate::damage::{plant, Fault};
use crate::desk::BUFFER;
use crate::generate::{any, rule, small, Draft, ENTER};
use crate::random::Random;
use crate::verdict::needed;

/// A file with a fault in it.
pub fn wrong_file(random: &mut Random) -> (Vec<u8>, Fault) {
    let draft = match random.percent(50) {
        true => small(random),
        false => any(random),
    };
    let fault = Fault::any(random, draft.rules.len());
    (plant(random, &draft, &[fault]), fault)
}

/// Plants 22, 23 and 24, each by chance. Gives the length of the buffer, and
/// the refusals in their order.
pub fn obstruct(random: &mut Random, draft: &mut Draft) -> (usize, Vec<u8>) {
    let mut length = BUFFER;
    let mut planted = Vec::new();
    if random.percent(30) {
        let place = random.below(draft.rules.len() + 1);
        let steps = vec![[ENTER, 0, 0, 0]; random.between(2, 6)];
        draft.rules.insert(place, rule(1, &[], &steps));
        planted.push(22);
    }
    if random.percent(35) {
        crowd(random, draft);
        planted.push(23);
    }
    if random.percent(45) {
        length = random.below(needed(&draft.file()));
        planted.push(24);
    }
    (length, planted)
}

/// 31 or 32 names.
pub fn crowd(random: &mut Random, draft: &mut Draft) {
    let count = random.pick(&[31, 31, 32]);
    let kind = random.between(1, 2) as u8;
    let mut names: Vec<usize> = (0..32).collect();
    random.shuffle(&mut names);
    let mut exist = draft.kinds.iter().filter(|kind| **kind > 0).count();
    for name in names {
        if draft.kinds[name] == 0 && exist < count {
            draft.kinds[name] = kind;
            exist += 1;
        }
    }
}
