//! Compares the verified library's reader with the reference reader.

#[path = "../boundary/check.rs"]
mod boundary;

use reference::damage::{plant, wrong_table, Fault, RuleFault};
use reference::file::{self, Set, CELLS, RIGHTS, SET_BYTES};
use reference::generate::{any, joined, longest, rule, Draft, ENTER};
use reference::random::Random;
use reference::report::{hex, Arguments, Counts, Group, Report};
use reference::{second, twelve};

/// The reader under test, and how often each answer was seen.
struct Reader {
    check: fn(&[u8]) -> u8,
    counts: Counts,
}

impl Reader {
    /// Compares on one input, and gives the reference's answer.
    fn compare(&mut self, group: &mut Group, bytes: &[u8]) -> u8 {
        let before = bytes.to_vec();
        let wanted = file::check(bytes);
        let given = (self.check)(bytes);
        self.counts.add(wanted);
        group.input(given == wanted, || {
            format!("answer {given}, reference {wanted}, on {}", hex(bytes))
        });
        group.demand(before == bytes, || {
            format!("bytes changed, file was {}", hex(&before))
        });
        wanted
    }

    /// Also demands that the reference gives the known answer.
    fn expect(&mut self, group: &mut Group, bytes: &[u8], known: u8) {
        let wanted = self.compare(group, bytes);
        group.demand(wanted == known, || {
            format!("reference {wanted}, {known} was planted, on {}", hex(bytes))
        });
    }
}

/// A draft with at least so many rules.
fn with_rules(random: &mut Random, least: usize) -> Draft {
    loop {
        let draft = any(random);
        if draft.rules.len() >= least {
            return draft;
        }
    }
}

/// The carries (requests C-19 and C-21): every pair of bytes of them with every g,
/// their length on both sides, and what comes before them and behind.
fn carries(report: &mut Report, reader: &mut Reader) {
    // The number of rights on both sides of a byte's eight, and the largest.
    let rights = [1, 8, 9, RIGHTS - 1, RIGHTS];
    report.group("44: every set that a right carries", 320_000, |group| {
        for rights in rights {
            let mut file = Draft::empty(rights).file();
            let end = file.len();
            for carried in 0..=Set::MAX {
                let within = carried < 1 << rights;
                file[end - SET_BYTES..].copy_from_slice(&carried.to_le_bytes());
                reader.expect(group, &file, if within { 0 } else { 44 });
            }
        }
    });
    report.group("7: every set in a cell", 320_000, |group| {
        for rights in rights {
            let mut draft = Draft::empty(rights);
            draft.kinds[31] = 2;
            let mut file = draft.file();
            // The last cell, in the one row and the one column that there are.
            let end = file.len() - SET_BYTES * rights as usize;
            for cell in 0..=Set::MAX {
                let within = cell < 1 << rights;
                file[end - SET_BYTES..end].copy_from_slice(&cell.to_le_bytes());
                reader.expect(group, &file, if within { 0 } else { 7 });
            }
        }
    });
    report.group("44: a byte of any value in every carry", 38_000, |group| {
        for rights in 1..=RIGHTS {
            let mut file = Draft::empty(rights).file();
            let start = file.len() - SET_BYTES * rights as usize;
            for place in start..file.len() {
                let high = (place - start) % SET_BYTES == 1;
                for value in 0..=255 {
                    file[place] = value;
                    let carried = if high {
                        Set::from(value) << 8
                    } else {
                        value.into()
                    };
                    let within = carried < 1 << rights;
                    reader.expect(group, &file, if within { 0 } else { 44 });
                }
                file[place] = 0;
            }
        }
    });
    report.group("5: every length of the carries", 900, |group| {
        for rights in 1..=RIGHTS {
            let whole = SET_BYTES * rights as usize;
            for length in (0..=40).chain([255, 256, 256 + whole, 1_900]) {
                let mut sections = Draft::empty(rights).sections();
                sections[2].resize(length, 0);
                let known = if length == whole { 0 } else { 5 };
                reader.expect(group, &joined(rights, &sections), known);
                // The length tells, and not what would stand there.
                sections[2].fill(255);
                let known = if length == whole { 44 } else { 5 };
                reader.expect(group, &joined(rights, &sections), known);
            }
        }
    });
    report.group("5: lengths of the cells", 250, |group| {
        for rights in 1..=RIGHTS {
            let about = [CELLS, SET_BYTES * CELLS].map(|length| length - 2..=length + 2);
            for length in about.into_iter().flatten().chain([0, 1, 32, 512, 3_900]) {
                for filling in [0, 255] {
                    let mut sections = Draft::empty(rights).sections();
                    sections[1].resize(length, 0);
                    sections[1].fill(filling);
                    let known = match length == SET_BYTES * CELLS {
                        true if filling == 0 => 0,
                        true => 7,
                        false => 5,
                    };
                    reader.expect(group, &joined(rights, &sections), known);
                }
            }
        }
    });
    report.group("44 behind 7, before the rules; 5 before 6", 120, |group| {
        for rights in 1..=RIGHTS {
            let mut draft = Draft::empty(rights);
            draft.carries[rights as usize - 1] = 1 << rights;
            reader.expect(group, &draft.file(), 44);
            // Before each refusal of a rule.
            for section in [
                vec![],
                vec![0, 0, 1],
                vec![1, 0, 1],
                rule(1, &[], &[[7, 0, 0, 0]]),
            ] {
                let mut with_rule = draft.clone();
                with_rule.rules.push(section);
                reader.expect(group, &with_rule.file(), 44);
            }
            let mut with_cell = draft.clone();
            with_cell.cells[1023] = 1;
            reader.expect(group, &with_cell.file(), 7);
            let mut with_kind = with_cell.clone();
            with_kind.kinds[31] = 3;
            reader.expect(group, &with_kind.file(), 6);
            let whole = SET_BYTES * rights as usize;
            for length in [0, rights as usize, whole - 1, whole + 1] {
                let mut sections = with_kind.sections();
                sections[2].resize(length, 0);
                reader.expect(group, &joined(rights, &sections), 5);
            }
        }
    });
    report.group("3: pairs 3 to 35", 36, |group| {
        for rules in 0..=32 {
            let mut draft = Draft::empty(1);
            draft.rules = vec![rule(1, &[], &[[ENTER, 0, 0, 0]]); rules];
            reader.expect(group, &draft.file(), 0);
        }
        let mut draft = Draft::empty(1);
        draft.rules = vec![rule(1, &[], &[[ENTER, 0, 0, 0]]); 33];
        reader.expect(group, &draft.file(), 3);
        // Kinds and cells alone, in order and whole.
        let mut file = vec![1, 2, 10, 0, 32, 0, 42, 0, 0, 8];
        file.resize(10 + 32 + 2048, 0);
        reader.expect(group, &file, 3);
        file[1] = 3;
        reader.expect(group, &file, 4);
    });
}

fn main() {
    let arguments = Arguments::read("reader");
    let mut reader = Reader {
        check: if arguments.own {
            second::check
        } else {
            boundary::check
        },
        counts: Counts::default(),
    };
    let mut random = Random::new(arguments.seed);
    let random = &mut random;
    let mut report = Report::default();

    report.group("accepted files of all shapes", 60_000, |group| {
        for _ in 0..60_000 {
            let file = any(random).file();
            reader.expect(group, &file, 0);
        }
        let file = longest(random).file();
        group.demand(file.len() == 3494, || format!("{} bytes", file.len()));
        reader.expect(group, &file, 0);
        // The shortest: no rules.
        let file = Draft::empty(1).file();
        group.demand(file.len() == 2096, || format!("{} bytes", file.len()));
        reader.expect(group, &file, 0);
    });

    report.group(
        "a byte of any value at each structural place",
        200_000,
        |group| {
            for round in 0..5 {
                let draft = match round {
                    0 => Draft::empty(3),
                    1 => longest(random),
                    _ => with_rules(random, 3),
                };
                let mut file = draft.file();
                let sections = file::kinds_offset(&file);
                // Header, pairs and kinds, then carries and all rules; the cells follow below.
                let cells = sections + 32..sections + 32 + SET_BYTES * CELLS;
                let places = (0..cells.start).chain(cells.end..file.len());
                for place in places {
                    let kept = file[place];
                    for value in 0..=255 {
                        file[place] = value;
                        reader.compare(group, &file);
                    }
                    file[place] = kept;
                }
            }
        },
    );

    report.group("a few values at every place", 100_000, |group| {
        for round in 0..10 {
            let draft = match round {
                0 => Draft::empty(RIGHTS),
                1 => longest(random),
                _ => any(random),
            };
            let mut file = draft.file();
            for place in 0..file.len() {
                let kept = file[place];
                // The lowest bit outside, in its byte.
                let top = 1 << (draft.rights % 8);
                let values = [0, 1, 2, 3, kept ^ 1, kept ^ 128, top, 255, random.byte()];
                for value in values {
                    file[place] = value;
                    reader.compare(group, &file);
                }
                file[place] = kept;
            }
        }
    });

    report.group("cut at every length", 10_000, |group| {
        for round in 0..8 {
            let draft = match round {
                0 => Draft::empty(2),
                1 => longest(random),
                _ => any(random),
            };
            let file = draft.file();
            // The rest still lies behind the slice, to tempt a reader.
            for length in 0..file.len() {
                let wanted = reader.compare(group, &file[..length]);
                group.demand(wanted != 0, || format!("cut to {length} accepted"));
            }
        }
    });

    report.group("longer files", 10_000, |group| {
        for _ in 0..4_000 {
            let draft = any(random);
            let mut file = draft.file();
            let extra = match random.below(4) {
                0 => 1,
                1 => random.between(1, 8),
                2 => random.between(1, 600),
                _ => 4096 - file.len(),
            };
            let tail = random.bytes(extra);
            file.extend(&tail);
            reader.expect(group, &file, 4);
            // The last pair made to reach the end.
            let at = 4 * file[1] as usize;
            let length = u16::from_le_bytes([file[at], file[at + 1]]) as usize + extra;
            file[at..at + 2].copy_from_slice(&(length as u16).to_le_bytes());
            reader.expect(group, &file, 5);
            file.resize(random.between(4097, 9000), 0);
            reader.expect(group, &file, 1);
        }
    });

    report.group("lengths 0, 1, 2 and about 4,096", 2_000, |group| {
        reader.expect(group, &[], 1);
        for byte in 0..=255 {
            reader.expect(group, &[byte], 1);
            for second in [0, 1, 2, 3, 4, 34, 35, 36, 255] {
                reader.compare(group, &[byte, second]);
            }
        }
        for _ in 0..200 {
            for length in [4095, 4096, 4097] {
                let within = |refusal: u8| if length > 4096 { 1 } else { refusal };
                let draft = with_rules(random, 1);
                // Bytes behind the last section.
                let mut file = draft.file();
                file.resize(length, 0);
                reader.expect(group, &file, within(4));
                // A section as long as the file needs: kinds, cells, carries, a rule.
                let missing = length - draft.file().len();
                for section in 0..3 {
                    let mut padded = draft.sections();
                    let whole = padded[section].len() + missing;
                    padded[section].resize(whole, 0);
                    reader.expect(group, &joined(draft.rights, &padded), within(5));
                }
                let number = random.below(draft.rules.len());
                let mut padded = draft.clone();
                let whole = padded.rules[number].len() + missing;
                padded.rules[number].resize(whole, 0);
                reader.expect(group, &padded.file(), within(5));
                padded.rules[number][0] = 0;
                reader.expect(group, &padded.file(), within(8));
                // All zero, and random bytes.
                reader.expect(group, &vec![0; length], within(2));
                let mut file = random.bytes(length);
                reader.compare(group, &file);
                file[0] = 4;
                file[1] = 3;
                reader.compare(group, &file);
            }
        }
    });

    report.group("wrong tables of pairs", 60_000, |group| {
        for _ in 0..60_000 {
            let draft = any(random);
            reader.compare(group, &wrong_table(random, &draft));
        }
    });

    report.group("one planted fault", 60_000, |group| {
        while group.inputs < 60_000 {
            let draft = any(random);
            let fault = Fault::any(random, draft.rules.len());
            let file = plant(random, &draft, &[fault]);
            reader.expect(group, &file, fault.refusal());
        }
    });

    report.group(
        "two planted faults, the first is reported",
        100_000,
        |group| {
            while group.inputs < 100_000 {
                let draft = any(random);
                let rules = draft.rules.len();
                let faults = [Fault::any(random, rules), Fault::any(random, rules)];
                let file = plant(random, &draft, &faults);
                let first = faults[0].min(faults[1]);
                reader.expect(group, &file, first.refusal());
            }
        },
    );

    report.group("two planted faults in rules", 40_000, |group| {
        let kinds = [
            RuleFault::UnderThree,
            RuleFault::Head,
            RuleFault::Length,
            RuleFault::Body,
        ];
        while group.inputs < 40_000 {
            let draft = with_rules(random, 2);
            let one = random.below(draft.rules.len());
            let other = match random.below(3) {
                0 => one,
                1 => (one + 1) % draft.rules.len(),
                _ => random.below(draft.rules.len()),
            };
            let faults = [
                Fault::Rule(one, random.pick(&kinds)),
                Fault::Rule(other, random.pick(&kinds)),
            ];
            let file = plant(random, &draft, &faults);
            let first = faults[0].min(faults[1]);
            reader.expect(group, &file, first.refusal());
        }
    });

    report.group("random bytes", 40_000, |group| {
        for round in 0..40_000 {
            let length = match round % 4 {
                0 => random.below(12),
                1 => random.below(200),
                _ => random.below(4200),
            };
            let mut file = random.bytes(length);
            if round % 2 == 1 && length >= 2 {
                file[0] = random.between(1, usize::from(RIGHTS)) as u8;
                file[1] = random.between(3, 35) as u8;
            }
            reader.compare(group, &file);
        }
        // A right table, random sections.
        for _ in 0..5_000 {
            let mut draft = any(random);
            for kind in &mut draft.kinds {
                *kind = random.below(4) as u8 * random.below(2) as u8;
            }
            for carried in &mut draft.carries {
                *carried = random.word() as Set >> random.between(0, 15);
            }
            for section in &mut draft.rules {
                let length = random.between(0, 40);
                *section = (0..length).map(|_| random.below(8) as u8).collect();
            }
            reader.compare(group, &draft.file());
        }
    });

    report.group("the limits of each number, by hand", 30, |group| {
        let base = |section: Vec<u8>| {
            let mut draft = Draft::empty(2);
            draft.kinds[0] = 2;
            draft.rules.push(section);
            draft.file()
        };
        let enter = [ENTER, 1, 3, 3];
        let all = |c: usize, m: usize| rule(4, &vec![[1, 3, 3]; c], &vec![enter; m]);
        reader.expect(group, &base(all(0, 1)), 0);
        reader.expect(group, &base(all(4, 6)), 0);
        reader.expect(group, &base(all(5, 6)), 8);
        reader.expect(group, &base(all(4, 7)), 8);
        reader.expect(group, &base(all(4, 0)), 8);
        reader.expect(group, &base(rule(5, &[], &[enter])), 8);
        reader.expect(group, &base(rule(0, &[], &[[1, 0, 0, 0]])), 8);
        reader.expect(group, &base(rule(3, &[], &[enter])), 9);
        reader.expect(group, &base(rule(1, &[], &[[1, 1, 0, 0]])), 0);
        reader.expect(group, &base(rule(1, &[], &[[1, 2, 0, 0]])), 9);
        reader.expect(group, &base(rule(1, &[], &[[2, 2, 0, 0]])), 9);
        reader.expect(group, &base(rule(1, &[], &[[2, 0, 1, 0]])), 9);
        reader.expect(group, &base(rule(1, &[], &[[2, 0, 0, 1]])), 9);
        reader.expect(group, &base(rule(1, &[], &[[0, 0, 0, 0]])), 9);
        reader.expect(group, &base(rule(1, &[], &[[7, 0, 0, 0]])), 9);
        for kind in 3..=6 {
            reader.expect(group, &base(rule(4, &[], &[[kind, 0, 3, 0]])), 0);
            reader.expect(group, &base(rule(4, &[], &[[kind, 0, 4, 0]])), 9);
            // Right and second blank in range, yet not 0.
            reader.expect(group, &base(rule(4, &[], &[[kind, 1, 3, 0]])), 9);
            reader.expect(group, &base(rule(4, &[], &[[kind, 0, 3, 1]])), 9);
        }
        reader.expect(group, &base(rule(2, &[[1, 1, 1]], &[[1, 0, 0, 0]])), 0);
        reader.expect(group, &base(rule(2, &[[2, 1, 1]], &[[1, 0, 0, 0]])), 9);
        reader.expect(group, &base(rule(2, &[[1, 2, 1]], &[[1, 0, 0, 0]])), 9);
        reader.expect(group, &base(rule(2, &[[1, 1, 2]], &[[1, 0, 0, 0]])), 9);
    });

    report.group("twelve rights: files by hand", 2_900, |group| {
        for case in twelve::checked() {
            reader.expect(group, &case.file, case.refusal);
        }
    });
    carries(&mut report, &mut reader);
    report.group("each answer was seen", 11, |group| {
        let answers: Vec<u8> = (0..=9).chain([44]).collect();
        reader.counts.demand(group, &answers, 100);
    });
    reader.counts.print("answers");
    report.finish();
}
