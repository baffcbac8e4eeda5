//! Generators of accepted files, of rule runs and of traces.

use crate::carrying::carriers;
use crate::file::{Contents, Rule, Set, Step, CELLS, NAMES, RIGHTS};
use crate::machine::{numbers, run, AccessMatrix, Bounded, Kind};
use crate::random::Random;

pub const ENTER: u8 = 1;
pub const DELETE: u8 = 2;
pub const CREATE_SUBJECT: u8 = 3;
pub const CREATE_OBJECT: u8 = 4;
pub const DESTROY_SUBJECT: u8 = 5;
pub const DESTROY_OBJECT: u8 = 6;

/// A file in the making: what it says, not yet put into bytes.
#[derive(Clone, Debug)]
pub struct Draft {
    pub rights: u8,
    pub kinds: Vec<u8>,
    pub cells: Vec<Set>,
    /// Entry i: the rights that right i carries.
    pub carries: Vec<Set>,
    pub rules: Vec<Vec<u8>>,
}

impl Draft {
    pub fn empty(rights: u8) -> Draft {
        Draft {
            rights,
            kinds: vec![0; NAMES],
            cells: vec![0; CELLS],
            carries: vec![0; rights as usize],
            rules: Vec::new(),
        }
    }

    pub fn put(&mut self, subject: usize, object: usize, right: u8) {
        self.cells[32 * subject + object] |= 1 << right;
    }

    /// The right carries the other one.
    pub fn carry(&mut self, right: u8, other: u8) {
        self.carries[right as usize] |= 1 << other;
    }

    /// The same without carries.
    pub fn carrying_nothing(&self) -> Draft {
        let mut draft = self.clone();
        draft.carries.fill(0);
        draft
    }

    /// The bytes of its sections.
    pub fn sections(&self) -> Vec<Vec<u8>> {
        let bytes = |sets: &[Set]| sets.iter().flat_map(|set| set.to_le_bytes()).collect();
        let mut sections = vec![self.kinds.clone(), bytes(&self.cells), bytes(&self.carries)];
        sections.extend(self.rules.iter().cloned());
        sections
    }

    pub fn file(&self) -> Vec<u8> {
        joined(self.rights, &self.sections())
    }

    pub fn names(&self) -> Vec<usize> {
        (0..NAMES).filter(|&n| self.kinds[n] > 0).collect()
    }

    /// Rights by chance in the cells that may hold some.
    fn scatter(&mut self, random: &mut Random, density: usize) {
        let names = self.names();
        for &s in &names {
            for &o in &names {
                for right in 0..self.rights {
                    if self.kinds[s] == 2 && random.percent(density) {
                        self.put(s, o, right);
                    }
                }
            }
        }
    }

    /// Carries by chance in so many of a hundred drafts: a few links, a chain, a
    /// cycle, or all.
    pub fn spread_carries(&mut self, random: &mut Random, chance: usize) {
        if !random.percent(chance) {
            return;
        }
        let rights = self.rights as usize;
        let mut order: Vec<u8> = (0..self.rights).collect();
        random.shuffle(&mut order);
        order.truncate(random.between(1, rights));
        match random.below(8) {
            0..=2 => {
                let links = random.between(1, 3);
                for _ in 0..links {
                    let [one, other] = [(); 2].map(|_| random.below(rights) as u8);
                    self.carry(one, other);
                }
            }
            3 | 4 => {
                for link in order.windows(2) {
                    self.carry(link[0], link[1]);
                }
            }
            // Of one right: it carries itself.
            5 | 6 => {
                for (place, &right) in order.iter().enumerate() {
                    self.carry(right, order[(place + 1) % order.len()]);
                }
            }
            _ => {
                let density = random.pick(&[50, 100]);
                for right in 0..self.rights {
                    for other in 0..self.rights {
                        if random.percent(density) {
                            self.carry(right, other);
                        }
                    }
                }
            }
        }
        if random.percent(60) {
            self.give_way(random);
        }
    }

    /// Many rights in cells give way to rights that carry them, so that conditions
    /// hold by carrying alone.
    fn give_way(&mut self, random: &mut Random) {
        let carriers = carriers(&self.carries);
        for cell in &mut self.cells {
            for right in 0..self.rights {
                let others = carriers[right as usize] & !(1 << right);
                let others: Vec<u8> = (0..self.rights).filter(|o| others >> o & 1 == 1).collect();
                if *cell >> right & 1 == 1 && !others.is_empty() && random.percent(60) {
                    *cell = *cell & !(1 << right) | 1 << random.pick(&others);
                }
            }
        }
    }

    /// About a third of the rules have spare blanks after this, one to three
    /// of them, and the others none.
    pub fn spread_spares(&mut self, random: &mut Random) {
        for section in &mut self.rules {
            let room = 4 - named(section).len();
            let count = match room {
                0 => 0,
                _ if !random.percent(36) => 0,
                _ => random.between(1, room),
            };
            *section = with_spares(random, section, count);
        }
    }
}

/// The file of these sections, whatever is in them.
pub fn joined(rights: u8, sections: &[Vec<u8>]) -> Vec<u8> {
    let mut file = vec![rights, sections.len() as u8];
    let mut offset = 2 + 4 * sections.len();
    for section in sections {
        file.extend((offset as u16).to_le_bytes());
        file.extend((section.len() as u16).to_le_bytes());
        offset += section.len();
    }
    for section in sections {
        file.extend(section);
    }
    file
}

/// The blanks that the rule's conditions and steps name, in order.
fn named(section: &[u8]) -> Vec<u8> {
    let (conditions, steps) = section[3..].split_at(3 * section[1] as usize);
    let tested = conditions.chunks(3).flat_map(|test| &test[1..]);
    let used = steps.chunks(4).flat_map(|step| match step[0] {
        ENTER | DELETE => &step[2..],
        _ => &step[2..3],
    });
    let mut blanks: Vec<u8> = tested.chain(used).copied().collect();
    blanks.sort();
    blanks.dedup();
    blanks
}

/// The rule with this many spare blanks, anywhere among those that it names.
pub fn with_spares(random: &mut Random, section: &[u8], count: usize) -> Vec<u8> {
    let named = named(section);
    let blanks = named.len() + count;
    let mut places: Vec<u8> = (0..blanks as u8).collect();
    random.shuffle(&mut places);
    places.truncate(named.len());
    places.sort();
    let moved = |blank: u8| match named.binary_search(&blank) {
        Ok(at) => places[at],
        Err(_) => unreachable!("named"),
    };
    let mut section = section.to_vec();
    section[0] = blanks as u8;
    let steps = 3 * section[1] as usize;
    let (conditions, steps) = section[3..].split_at_mut(steps);
    for test in conditions.chunks_mut(3) {
        test[1] = moved(test[1]);
        test[2] = moved(test[2]);
    }
    for step in steps.chunks_mut(4) {
        step[2] = moved(step[2]);
        if matches!(step[0], ENTER | DELETE) {
            step[3] = moved(step[3]);
        }
    }
    section
}

/// What stands in a spare blank: any byte, and the ends of what a name can be
/// more often than by chance.
pub fn job_number(random: &mut Random) -> u8 {
    match random.below(8) {
        0 => 255,
        1 => random.pick(&[0, 31, 32, 33, 127, 128, 254]),
        2 => random.below(NAMES) as u8,
        _ => random.byte(),
    }
}

/// A rule's section: conditions (right, subject blank, object blank), steps
/// (kind, right, first blank, second blank).
pub fn rule(blanks: u8, conditions: &[[u8; 3]], steps: &[[u8; 4]]) -> Vec<u8> {
    let mut section = vec![blanks, conditions.len() as u8, steps.len() as u8];
    section.extend(conditions.iter().flatten());
    section.extend(steps.iter().flatten());
    section
}

/// `count` different names; now and then the lowest or the highest ones.
pub fn some_names(random: &mut Random, count: usize) -> Vec<usize> {
    let mut names: Vec<usize> = (0..NAMES).collect();
    match random.below(4) {
        0 => {}
        1 => names.reverse(),
        _ => random.shuffle(&mut names),
    }
    names.truncate(count);
    names
}

fn matrix(random: &mut Random, rights: u8, names: usize, subjects: usize, density: usize) -> Draft {
    let mut draft = Draft::empty(rights);
    for name in some_names(random, names) {
        draft.kinds[name] = if random.percent(subjects) { 2 } else { 1 };
    }
    draft.scatter(random, density);
    draft
}

fn step(random: &mut Random, rights: u8, blanks: u8, kind: u8) -> [u8; 4] {
    let right = random.below(rights as usize) as u8;
    let first = random.below(blanks as usize) as u8;
    let second = random.below(blanks as usize) as u8;
    match kind {
        ENTER | DELETE => [kind, right, first, second],
        _ => [kind, 0, first, 0],
    }
}

fn condition(random: &mut Random, rights: u8, blanks: u8) -> [u8; 3] {
    [
        random.below(rights as usize) as u8,
        random.below(blanks as usize) as u8,
        random.below(blanks as usize) as u8,
    ]
}

/// Any rule that a file may have.
pub fn any_rule(random: &mut Random, rights: u8) -> Vec<u8> {
    let blanks = random.between(1, 4) as u8;
    let conditions: Vec<_> = (0..random.between(0, 4))
        .map(|_| condition(random, rights, blanks))
        .collect();
    let steps: Vec<_> = (0..random.between(1, 6))
        .map(|_| {
            let kind = random.between(1, 6) as u8;
            step(random, rights, blanks, kind)
        })
        .collect();
    rule(blanks, &conditions, &steps)
}

/// A number of rights: on both sides of a byte's eight more often than by chance.
fn any_rights(random: &mut Random) -> u8 {
    match random.below(4) {
        0 => random.pick(&[7, 8, 9]),
        1 => random.pick(&[RIGHTS - 1, RIGHTS]),
        _ => random.between(1, usize::from(RIGHTS)) as u8,
    }
}

/// Any accepted file.
pub fn any(random: &mut Random) -> Draft {
    let rights = any_rights(random);
    let names = match random.below(6) {
        0 => 0,
        1 => NAMES,
        _ => random.between(1, NAMES),
    };
    let subjects = random.pick(&[0, 30, 60, 100]);
    let density = random.pick(&[0, 10, 50, 100]);
    let mut draft = matrix(random, rights, names, subjects, density);
    let rules = match random.below(6) {
        0 => 0,
        1 => 32,
        _ => random.between(1, 31),
    };
    draft.rules = (0..rules).map(|_| any_rule(random, rights)).collect();
    draft.spread_carries(random, 70);
    draft.spread_spares(random);
    draft
}

/// The longest file there can be: 3,494 bytes.
pub fn longest(random: &mut Random) -> Draft {
    let mut draft = matrix(random, RIGHTS, NAMES, 100, 100);
    draft.spread_carries(random, 100);
    for _ in 0..32 {
        let conditions: Vec<_> = (0..4).map(|_| condition(random, RIGHTS, 4)).collect();
        let steps: Vec<_> = (1..=6).map(|kind| step(random, RIGHTS, 4, kind)).collect();
        draft.rules.push(rule(4, &conditions, &steps));
    }
    draft
}

/// A rule of several steps that can often be carried out: it is made along
/// with a belief of what each blank's name is before each step.
pub fn plausible_rule(random: &mut Random, rights: u8) -> Vec<u8> {
    let blanks = random.pick(&[1, 2, 2, 3, 3, 4]) as u8;
    let mut believed: Vec<Kind> = (0..blanks)
        .map(|_| match random.below(10) {
            0..=4 => Kind::Subject,
            5..=6 => Kind::Object,
            _ => Kind::Absent,
        })
        .collect();

    let mut conditions = Vec::new();
    for _ in 0..random.pick(&[0, 0, 1, 1, 2, 3, 4]) {
        let test = condition(random, rights, blanks);
        let fits = believed[test[1] as usize] == Kind::Subject
            && believed[test[2] as usize] != Kind::Absent;
        if fits || random.percent(5) {
            conditions.push(test);
        }
    }

    let mut steps = Vec::new();
    for _ in 0..random.between(1, 6) {
        for attempt in 0..12 {
            let kind = random.between(1, 6) as u8;
            let chosen = step(random, rights, blanks, kind);
            let first = chosen[2] as usize;
            let fits = match kind {
                ENTER | DELETE => {
                    believed[first] == Kind::Subject && believed[chosen[3] as usize] != Kind::Absent
                }
                CREATE_SUBJECT | CREATE_OBJECT => believed[first] == Kind::Absent,
                DESTROY_SUBJECT => believed[first] == Kind::Subject,
                _ => believed[first] == Kind::Object,
            };
            if !fits && attempt < 11 && !random.percent(2) {
                continue;
            }
            steps.push(chosen);
            match kind {
                ENTER | DELETE => {}
                CREATE_SUBJECT => believed[first] = Kind::Subject,
                CREATE_OBJECT => believed[first] = Kind::Object,
                _ => believed[first] = Kind::Absent,
            }
            break;
        }
    }
    rule(blanks, &conditions, &steps)
}

/// An accepted file whose rules can often be carried out.
pub fn lively(random: &mut Random) -> Draft {
    let rights = any_rights(random);
    let names = random.pick(&[0, 1, 2, 4, 8, 16, 24, 30, 31, 32]);
    let subjects = random.pick(&[30, 60, 80, 100]);
    let density = random.pick(&[0, 20, 50, 90]);
    let mut draft = matrix(random, rights, names, subjects, density);
    let rules = random.pick(&[1, 2, 4, 8, 16, 32]);
    draft.rules = (0..rules).map(|_| plausible_rule(random, rights)).collect();
    draft.spread_carries(random, 60);
    draft.spread_spares(random);
    draft
}

/// Rules of many steps on one or two blanks: the same names are created,
/// filled, destroyed and created again within one rule run.
pub fn turbulent(random: &mut Random) -> Draft {
    let rights = random.between(1, 3) as u8;
    let mut draft = Draft::empty(rights);
    for name in [0, 1, 29, 30, 31] {
        draft.kinds[name] = random.below(3) as u8;
    }
    draft.scatter(random, 60);
    draft.spread_carries(random, 60);
    for _ in 0..8 {
        let blanks = random.between(1, 3) as u8;
        let mut steps = Vec::new();
        // Per blank a cycle that fits itself: created, destroyed, created.
        let mut alive: Vec<bool> = (0..blanks).map(|_| random.percent(50)).collect();
        let mut subject = vec![true; blanks as usize];
        for _ in 0..random.between(3, 6) {
            let blank = random.below(blanks as usize);
            let made = blank as u8;
            if !alive[blank] {
                subject[blank] = random.percent(70);
                let kind = if subject[blank] {
                    CREATE_SUBJECT
                } else {
                    CREATE_OBJECT
                };
                steps.push([kind, 0, made, 0]);
                alive[blank] = true;
            } else if random.percent(50) {
                let other = random.below(blanks as usize) as u8;
                let kind = random.pick(&[ENTER, ENTER, DELETE]);
                let right = random.below(rights as usize) as u8;
                steps.push([kind, right, made, other]);
            } else {
                let kind = if subject[blank] {
                    DESTROY_SUBJECT
                } else {
                    DESTROY_OBJECT
                };
                steps.push([kind, 0, made, 0]);
                alive[blank] = false;
            }
        }
        draft.rules.push(rule(blanks, &[], &steps));
    }
    draft.spread_spares(random);
    draft
}

/// What a blank's name must be before the first step, as far as the rule
/// alone tells.
#[derive(Clone, Copy, PartialEq, Eq)]
enum Want {
    Anything,
    Existing,
    Being(Kind),
}

fn wants(rule: &Rule) -> [Want; 4] {
    let mut wants = [Want::Anything; 4];
    let mut settled = [false; 4];
    let narrow = |wants: &mut [Want; 4], settled: &[bool; 4], blank: usize, want: Want| {
        if !settled[blank] && !matches!(wants[blank], Want::Being(_)) {
            wants[blank] = want;
        }
    };
    for condition in &rule.conditions {
        narrow(&mut wants, &settled, condition.object, Want::Existing);
        narrow(
            &mut wants,
            &settled,
            condition.subject,
            Want::Being(Kind::Subject),
        );
    }
    for step in &rule.steps {
        match *step {
            Step::Enter {
                subject, object, ..
            }
            | Step::Delete {
                subject, object, ..
            } => {
                narrow(&mut wants, &settled, object, Want::Existing);
                narrow(&mut wants, &settled, subject, Want::Being(Kind::Subject));
            }
            Step::CreateSubject(blank) | Step::CreateObject(blank) => {
                narrow(&mut wants, &settled, blank, Want::Being(Kind::Absent));
                settled[blank] = true;
            }
            Step::DestroySubject(blank) => {
                narrow(&mut wants, &settled, blank, Want::Being(Kind::Subject));
                settled[blank] = true;
            }
            Step::DestroyObject(blank) => {
                narrow(&mut wants, &settled, blank, Want::Being(Kind::Object));
                settled[blank] = true;
            }
        }
    }
    wants
}

/// A rule run with a fair chance to be carried out.
pub fn likely_run(random: &mut Random, rules: &[Rule], matrix: &Bounded) -> (u8, [u8; 4]) {
    let number = random.below(rules.len());
    let rule = &rules[number];
    let wants = wants(rule);
    let mut actuals = [255; 4];
    let mut given = Vec::new();
    for blank in 0..rule.blanks {
        if rule.spare.contains(&blank) {
            actuals[blank] = job_number(random);
            continue;
        }
        // Two blanks may get the same name.
        if !given.is_empty() && random.percent(15) {
            actuals[blank] = random.pick(&given);
            continue;
        }
        let fitting: Vec<u8> = (0..NAMES as u8)
            .filter(|&name| match wants[blank] {
                Want::Anything => true,
                Want::Existing => matrix.exists(u64::from(name)),
                Want::Being(kind) => matrix.kind(u64::from(name)) == kind,
            })
            .collect();
        actuals[blank] = if fitting.is_empty() || random.percent(3) {
            random.below(NAMES) as u8
        } else {
            random.pick(&fitting)
        };
        given.push(actuals[blank]);
    }
    (number as u8, actuals)
}

/// Any rule run at all, near the limits more often than by chance.
pub fn any_run(random: &mut Random, rules: &[Rule]) -> (u8, [u8; 4]) {
    let number = match random.below(8) {
        0 => rules.len() as u8,
        1 => random.byte(),
        2 => 255,
        _ => random.below(rules.len().max(1)) as u8,
    };
    let rule = rules.get(number as usize);
    let blanks = rule.map_or(2, |rule| rule.blanks);
    let mut actuals = [255; 4];
    for (position, actual) in actuals.iter_mut().enumerate() {
        if rule.is_some_and(|rule| rule.spare.contains(&position)) {
            *actual = job_number(random);
        } else if position < blanks {
            *actual = match random.below(12) {
                0 => 30,
                1 => 31,
                2 => random.pick(&[32, 33, 64, 127, 128, 254]),
                3 => random.pick(&[255, 32]),
                _ => random.below(NAMES) as u8,
            };
        } else if random.percent(8) {
            *actual = random.pick(&[0, 1, 31, 32, 254]);
        }
    }
    (number, actuals)
}

/// A trace that the machine carries out; shorter where no next step is found.
pub fn trace(random: &mut Random, contents: &Contents, length: usize) -> Vec<u8> {
    let mut state = contents.matrix.clone();
    let mut trace = Vec::new();
    if contents.rules.is_empty() {
        return trace;
    }
    for _ in 0..length {
        let mut chosen = None;
        for _ in 0..40 {
            let (rule, actuals) = likely_run(random, &contents.rules, &state);
            if let Ok(done) = run(&state, &contents.rules, u64::from(rule), numbers(actuals)) {
                state = done.after;
                chosen = Some((rule, actuals));
                break;
            }
        }
        let Some((rule, actuals)) = chosen else {
            break;
        };
        trace.push(rule);
        trace.extend(actuals);
    }
    trace
}

/// A table small enough for the brute search: at most 3 names, 3 rights and 4
/// rules of one step. The right asked for is 0.
pub fn small(random: &mut Random) -> Draft {
    let carrying = random.percent(50);
    let rights = match carrying {
        true => random.pick(&[1, 2, 2, 2, 3, 3]),
        false => random.pick(&[1, 2, 2, 2, 2, 2]),
    };
    let names = random.pick(&[0, 1, 1, 2, 2, 2, 3, 3]);
    let subjects = random.pick(&[50, 80, 100]);
    let density = random.pick(&[0, 20, 50, 80]);
    let mut draft = matrix(random, rights, names, subjects, density);
    let flavour = random.below(4);
    if flavour == 0 {
        // The right stands wherever it can, so that rounds seldom enter it.
        for s in draft.names() {
            for o in draft.names() {
                if draft.kinds[s] == 2 && random.percent(85) {
                    draft.put(s, o, 0);
                }
            }
        }
    }
    for number in 0..random.pick(&[1, 2, 3, 3, 4, 4, 4, 4]) {
        let kind = match (flavour, number) {
            // A delete and an enter of the right asked for: the closing search.
            (0, 0) => DELETE,
            (0, 1) => ENTER,
            // Creates first, so that later rules meet new names.
            (1, 0) => random.pick(&[CREATE_SUBJECT, CREATE_OBJECT]),
            (1, 1) => random.pick(&[CREATE_SUBJECT, CREATE_OBJECT, ENTER]),
            // Destroys, after which names come anew.
            (2, 0) => random.pick(&[DESTROY_SUBJECT, DESTROY_OBJECT]),
            (2, 1) => random.pick(&[CREATE_SUBJECT, CREATE_OBJECT]),
            _ => random.pick(&[ENTER, ENTER, ENTER, DELETE, 3, 4, 5, 6]),
        };
        let right = if (flavour == 0 && number < 2) || random.percent(35) || rights == 1 {
            0
        } else {
            random.between(1, rights as usize - 1) as u8
        };
        draft
            .rules
            .push(small_rule(random, rights, kind, right, &draft.cells));
    }
    // The order of the rules is part of the judge's answer.
    random.shuffle(&mut draft.rules);
    draft.spread_carries(random, if carrying { 100 } else { 0 });
    draft.spread_spares(random);
    draft
}

fn small_rule(random: &mut Random, rights: u8, kind: u8, right: u8, cells: &[Set]) -> Vec<u8> {
    let blanks = random.pick(&[1, 2, 2, 2, 3]);
    let [_, _, first, second] = step(random, rights, blanks, ENTER);
    let chosen = match kind {
        ENTER | DELETE => [kind, right, first, second],
        _ => [kind, 0, first, 0],
    };
    let creates = matches!(kind, CREATE_SUBJECT | CREATE_OBJECT);
    let count = match (kind, right) {
        // Enters of the right asked for want some condition mostly.
        (ENTER, 0) => random.pick(&[0, 1, 1, 1, 2, 2]),
        _ => random.pick(&[0, 0, 0, 1, 1, 2]),
    };
    let mut conditions = Vec::new();
    for _ in 0..count {
        let mut test = condition(random, rights, blanks);
        // A right that the start has somewhere is tested more often.
        if random.percent(50) {
            let held = cells.iter().fold(0, |all, cell| all | cell);
            let standing: Vec<u8> = (0..rights).filter(|r| held >> r & 1 == 1).collect();
            if !standing.is_empty() {
                test[0] = random.pick(&standing);
            }
        }
        // A condition on the created blank never holds.
        if creates && test[1..].contains(&first) && random.percent(90) {
            continue;
        }
        conditions.push(test);
    }
    rule(blanks, &conditions, &[chosen])
}

/// The same table with other numbers for its rights, in a file that may have more
/// of them, and each right's new number. The rights that come in so stand in cells,
/// and some are carried; no rule names them, and they carry none.
pub fn renumbered(random: &mut Random, draft: &Draft) -> (Draft, Vec<u8>) {
    let old = usize::from(draft.rights);
    let most = usize::from(RIGHTS);
    let rights = match random.percent(60) {
        true => most,
        false => random.between(old, most),
    };
    let mut numbers: Vec<u8> = (0..rights as u8).collect();
    random.shuffle(&mut numbers);
    let others = numbers.split_off(old);
    let moved = |set: Set| -> Set {
        let held = (0..old).filter(|right| set >> right & 1 == 1);
        held.map(|right| 1 << numbers[right]).sum()
    };
    let mut other = Draft::empty(rights as u8);
    other.kinds = draft.kinds.clone();
    other.cells = draft.cells.iter().map(|&cell| moved(cell)).collect();
    for (right, &carried) in draft.carries.iter().enumerate() {
        other.carries[usize::from(numbers[right])] = moved(carried);
    }
    for section in &draft.rules {
        let (head, rest) = section.split_at(3);
        let (conditions, steps) = rest.split_at(3 * usize::from(head[1]));
        let mut section = head.to_vec();
        for test in conditions.chunks(3) {
            section.extend([numbers[usize::from(test[0])], test[1], test[2]]);
        }
        for step in steps.chunks(4) {
            let right = match step[0] {
                ENTER | DELETE => numbers[usize::from(step[1])],
                _ => 0,
            };
            section.extend([step[0], right, step[2], step[3]]);
        }
        other.rules.push(section);
    }
    let density = random.pick(&[0, 30, 100]);
    for &right in &others {
        for s in draft.names() {
            for o in draft.names() {
                if draft.kinds[s] == 2 && random.percent(density) {
                    other.put(s, o, right);
                }
            }
        }
        if random.percent(30) {
            other.carry(random.pick(&numbers), right);
        }
    }
    (other, numbers)
}

/// A table of up to 30 names and 32 rules of one step, and the right to ask
/// for. It is entered by few rules mostly, so that many steps come first.
pub fn large(random: &mut Random) -> (Draft, u8) {
    let rights = any_rights(random);
    let right = random.below(rights as usize) as u8;
    let names = random.pick(&[0, 1, 3, 6, 10, 15, 20, 25, 28, 29, 30]);
    let subjects = random.pick(&[20, 50, 80, 100]);
    let density = random.pick(&[0, 1, 4, 10, 30]);
    let mut draft = matrix(random, rights, names, subjects, density);
    let rules = random.pick(&[0, 2, 4, 8, 12, 16, 24, 32, 32]);
    let rarely = random.percent(80);
    let mut wide = if random.percent(15) { 2 } else { 0 };
    for _ in 0..rules {
        let mut blanks = random.pick(&[1, 2, 2, 2, 3, 3]);
        if wide > 0 {
            blanks = 4;
            wide -= 1;
        }
        let kind = random.pick(&[
            ENTER,
            ENTER,
            ENTER,
            ENTER,
            ENTER,
            DELETE,
            DELETE,
            CREATE_SUBJECT,
            CREATE_OBJECT,
            DESTROY_SUBJECT,
            DESTROY_OBJECT,
        ]);
        let mut chosen = step(random, rights, blanks, kind);
        if kind == ENTER && rarely && rights > 1 && chosen[1] == right && random.percent(90) {
            chosen[1] = (right + 1) % rights;
        }
        let mut conditions = Vec::new();
        for _ in 0..random.pick(&[0, 1, 1, 1, 2, 2, 3, 4]) {
            let test = condition(random, rights, blanks);
            // A condition on the created blank never holds.
            let creates = matches!(kind, CREATE_SUBJECT | CREATE_OBJECT);
            if !creates || !test[1..].contains(&chosen[2]) || random.percent(5) {
                conditions.push(test);
            }
        }
        draft.rules.push(rule(blanks, &conditions, &[chosen]));
    }
    if rights > 2 && random.percent(40) {
        closing(random, &mut draft, right);
    }
    draft.spread_carries(random, 50);
    draft.spread_spares(random);
    (draft, right)
}

/// Makes the right enterable and deletable in cells that hold it: the guard of
/// its enter stands only there. Most cells have just one of the two.
fn closing(random: &mut Random, draft: &mut Draft, right: u8) {
    let rights = draft.rights;
    let guard = (right + 1) % rights;
    let permit = (right + 2) % rights;
    let names = draft.names();
    for &s in &names {
        for &o in &names {
            if draft.kinds[s] != 2 {
                continue;
            }
            // The guard is nowhere else than with the right.
            draft.cells[32 * s + o] &= !(1 << guard);
            if draft.cells[32 * s + o] >> right & 1 == 1 || random.percent(10) {
                draft.put(s, o, right);
                if random.percent(15) {
                    draft.put(s, o, guard);
                }
            }
        }
    }
    // Nothing else enters the right, the guard, or deletes the right.
    draft.rules.retain(|section| {
        let step = &section[section.len() - 4..];
        let enters = step[0] == ENTER && (step[1] == right || step[1] == guard);
        let deletes = step[0] == DELETE && step[1] == right;
        !enters && !deletes
    });
    draft.rules.truncate(28);
    let third = random.pick(&[0, 1, 2]);
    let made = [
        rule(2, &[[guard, 1, 0]], &[[ENTER, right, 1, 0]]),
        rule(
            3,
            &[[guard, 0, 1], [permit, 0, third]],
            &[[ENTER, right, 0, 1]],
        ),
        rule(3, &[[permit, 2, 1]], &[[DELETE, right, 2, 0]]),
        rule(2, &[[permit, 0, 1]], &[[DELETE, right, 0, 1]]),
    ];
    for section in made {
        if random.percent(70) {
            let place = random.below(draft.rules.len() + 1);
            draft.rules.insert(place, section);
        }
    }
}

/// A table whose judging takes many rounds, and the right to ask for: a token
/// right walks down a chain of names, one name a round, and hands over to the
/// next token right at the chain's end. The rules of later tokens come first.
pub fn chain(random: &mut Random) -> (Draft, u8) {
    let (mut draft, right) = walks(random);
    draft.spread_spares(random);
    (draft, right)
}

/// The chain, its rules without spare blanks.
fn walks(random: &mut Random) -> (Draft, u8) {
    let rights = random.between(4, usize::from(RIGHTS)) as u8;
    let mut draft = Draft::empty(rights);
    let names = random.pick(&[2, 4, 8, 12, 16, 20, 25, 29, 30, 30]);
    let mut path = some_names(random, names);
    match random.below(12) {
        0 => random.shuffle(&mut path),
        1 => path.sort(),
        _ => {
            path.sort();
            path.reverse();
        }
    }
    for &name in &path {
        draft.kinds[name] = 2;
    }
    // Some names beside the chain, as long as 30 are not passed.
    for name in 0..NAMES {
        if draft.kinds[name] == 0 && draft.names().len() < 30 && random.percent(20) {
            draft.kinds[name] = random.between(1, 2) as u8;
        }
    }

    // The last right links the chain, one marks its end, one is for asking.
    let link = rights - 1;
    let end = rights - 2;
    let seal = rights - 3;
    let tokens = rights - 3;
    let last_token = tokens - 1;
    let (first, last) = (path[0], *path.last().unwrap());
    // A right that carries the link does as well: of the tokens, each of which is
    // tested on the diagonal alone, some carry a lower one, and the lowest of these
    // the link.
    let mut links = vec![link];
    if random.percent(50) {
        for token in 0..tokens {
            if random.percent(50) {
                draft.carry(token, links[links.len() - 1]);
                links.push(token);
            }
        }
    }
    for pair in path.windows(2) {
        draft.put(pair[0], pair[1], random.pick(&links));
    }
    if random.percent(10) {
        draft.spread_carries(random, 100);
    }
    draft.put(last, first, end);
    draft.put(first, first, 0);

    for token in (0..tokens).rev() {
        // Which blank is slowest changes the order within a round.
        let (from, to) = random.pick(&[(1, 0), (1, 0), (0, 1)]);
        if token + 1 < tokens {
            let conditions = [[token, from, from], [end, from, to]];
            let steps = [[ENTER, token + 1, to, to]];
            draft.rules.push(rule(2, &conditions, &steps));
        }
        let conditions = [[token, from, from], [link, from, to]];
        let steps = [[ENTER, token, to, to]];
        draft.rules.push(rule(2, &conditions, &steps));
    }

    // What the last token's arrival at the end allows.
    let arrival = [[last_token, 0, 0], [end, 0, 1]];
    match random.below(4) {
        // The right is entered: late and unsafe.
        0 => {
            let place = random.below(draft.rules.len() + 1);
            draft
                .rules
                .insert(place, rule(2, &arrival, &[[ENTER, seal, 1, 0]]));
        }
        // Only the closing search leaks; other cells can but be deleted from.
        1 => {
            draft.put(last, first, seal);
            let all = draft.names();
            for &s in &path {
                for &o in &all {
                    if random.percent(3) {
                        draft.put(s, o, seal);
                    }
                }
            }
            let delete = rule(2, &[[last_token, 1, 1]], &[[DELETE, seal, 1, 0]]);
            let enter = rule(2, &arrival, &[[ENTER, seal, 0, 1]]);
            for section in [delete, enter] {
                let place = random.below(draft.rules.len() + 1);
                draft.rules.insert(place, section);
            }
        }
        // A new name joins, and then the right is entered there or is not.
        2 => {
            let kind = random.pick(&[CREATE_SUBJECT, CREATE_OBJECT]);
            let entered = random.pick(&[seal, link]);
            let conditions = [arrival[0], arrival[1]];
            let steps = [[ENTER, entered, 1, 2]];
            draft.rules.insert(0, rule(3, &conditions, &steps));
            let conditions = [[0, 0, 0], [end, 0, 1]];
            let steps = [[kind, 0, 2, 0]];
            draft.rules.insert(0, rule(3, &conditions, &steps));
        }
        // Nothing: safe.
        _ => {}
    }

    // Rules that do nothing here, or only now and then.
    while draft.rules.len() < 32 && random.percent(70) {
        let kind = random.pick(&[DELETE, DELETE, DESTROY_SUBJECT, DESTROY_OBJECT, ENTER]);
        let blanks = random.between(1, 2) as u8;
        let mut chosen = step(random, rights, blanks, kind);
        if kind == ENTER {
            chosen[1] = random.below(tokens as usize) as u8;
        }
        let conditions = [
            condition(random, rights, blanks),
            condition(random, rights, blanks),
        ];
        let place = random.below(draft.rules.len() + 1);
        draft
            .rules
            .insert(place, rule(blanks, &conditions, &[chosen]));
    }
    (draft, seal)
}

/// The same with rules by which a round does many steps: a token lets a right
/// into a whole row, a column, or a triangle, and names be created late.
pub fn busy_chain(random: &mut Random) -> (Draft, u8) {
    let (mut draft, seal) = walks(random);
    let (tokens, link) = (draft.rights - 3, draft.rights - 1);
    for _ in 0..random.between(2, 6) {
        if draft.rules.len() == 32 {
            break;
        }
        let token = random.below(tokens as usize) as u8;
        let other = random.below(tokens as usize) as u8;
        let entered = match random.below(20) {
            0 => seal,
            1..=6 => link,
            7..=12 => token,
            _ => other,
        };
        let section = match random.below(6) {
            // The cell goes with the last blank; with the first; with none but the first two.
            0 => rule(2, &[[token, 0, 0]], &[[ENTER, entered, 0, 1]]),
            1 => rule(2, &[[token, 1, 1]], &[[ENTER, entered, 0, 1]]),
            2 if draft.names().len() <= 16 => {
                let conditions = [[token, 0, 0], [link, 1, 2]];
                rule(3, &conditions, &[[ENTER, entered, 0, 1]])
            }
            // A blank twice in the cell.
            3 => rule(2, &[[token, 0, 1]], &[[ENTER, entered, 1, 1]]),
            4 => rule(2, &[[token, 0, 0]], &[[CREATE_SUBJECT, 0, 1, 0]]),
            _ => rule(2, &[[token, 0, 0]], &[[CREATE_OBJECT, 0, 1, 0]]),
        };
        let place = random.below(draft.rules.len() + 1);
        draft.rules.insert(place, section);
    }
    draft.spread_spares(random);
    (draft, seal)
}

/// Puts creates of both kinds between the rules, for which 30 names leave room.
pub fn both_creates(random: &mut Random, draft: &mut Draft) {
    draft.rules.truncate(28);
    // Twice each: the second finds a name absent once, and then none.
    for kind in [CREATE_SUBJECT, CREATE_OBJECT, CREATE_OBJECT, CREATE_SUBJECT] {
        let place = random.below(draft.rules.len() + 1);
        let section = rule(1, &[], &[[kind, 0, 0, 0]]);
        let spare = random.below(4);
        let section = with_spares(random, &section, spare);
        draft.rules.insert(place, section);
    }
}
