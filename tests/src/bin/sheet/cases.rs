//! Sheets by hand, one or more for each sentence of request C-17.

use super::compare::{compare, Library};
use reference::desk::BUFFER;
use reference::file::RIGHTS;
use reference::generate::*;
use reference::random::Random;
use reference::report::{hex, Group, Report};

pub fn run(report: &mut Report, library: Library, random: &mut Random) {
    report.group("the sentences of the request", 100, |group| {
        for case in all() {
            case.hold(group, library, random);
        }
    });
}

/// A file, a sheet and a buffer's length, and what is answered and written.
struct Case {
    file: Vec<u8>,
    entries: Vec<u8>,
    length: usize,
    code: u8,
    /// The entries after the call.
    answered: Vec<u8>,
    /// Where in the buffer the steps stand that are written; all other bytes stay.
    written: Vec<(usize, Vec<u8>)>,
}

impl Case {
    /// Puts a right into an entry that is none of the file's.
    fn refuse(&mut self, number: usize, right: u8) {
        self.entries[4 * number] = right;
        self.answered[4 * number..][..4].copy_from_slice(&[right, 21, 0, 0]);
        self.written[number].1.clear();
    }

    fn hold(&self, group: &mut Group, library: Library, random: &mut Random) {
        let Case { file, entries, .. } = self;
        compare(group, library, random, file, entries, self.length);
        let (mut given, mut buffer) = (entries.clone(), vec![170; self.length]);
        let code = (library.sheet)(file, &mut given, &mut buffer);
        let mut wanted = vec![170; self.length];
        for (at, steps) in &self.written {
            wanted[*at..at + steps.len()].copy_from_slice(steps);
        }
        let good = code == self.code && given == self.answered && buffer == wanted;
        group.demand(good, || {
            format!(
                "code {code}, wanted {}, entries {given:?}, wanted {:?}, buffer {}, wanted {}",
                self.code,
                self.answered,
                hex(&buffer),
                hex(&wanted)
            )
        });
    }
}

const X: u8 = 255;
const UNSAFE: u8 = 255;
/// What stands in the place for an answer before the call.
const OLD: [u8; 3] = [7, 201, 99];

/// Entries before the call: each right with an old answer.
fn sheet(rights: &[u8]) -> Vec<u8> {
    let entry = |&right: &u8| [right, OLD[0], OLD[1], OLD[2]];
    rights.iter().flat_map(entry).collect()
}

fn all() -> Vec<Case> {
    let mut all = entries_and_parts();
    all.extend(refused_or_not());
    all.extend(empty());
    all.extend(too_many());
    all.extend(bad_files());
    all.extend(counts());
    all.extend(carried());
    all.extend(twelve());
    all
}

/// Twelve rights (request C-21), each asked for on a sheet: right 8 lets 11 in, and 0
/// would let 4 in.
fn twelve() -> Vec<Case> {
    let mut draft = Draft::empty(RIGHTS);
    draft.kinds[0] = 2;
    draft.put(0, 0, 8);
    draft.rules = vec![
        rule(1, &[[8, 0, 0]], &[[ENTER, 11, 0, 0]]),
        rule(1, &[[0, 0, 0]], &[[ENTER, 4, 0, 0]]),
    ];
    // 5 × (12 × 2 × 3 + 4) bytes are needed.
    let length = 380;
    let step = vec![0, 0, X, X, X];
    vec![Case {
        file: draft.file(),
        entries: sheet(&[3, 11, 12, 4, 8]),
        length: 5 * length,
        code: 0,
        answered: [
            [3, 0, 1, 0],
            [11, UNSAFE, 1, 0],
            [12, 21, 0, 0],
            [4, 0, 1, 0],
            [8, 0, 1, 0],
        ]
        .concat(),
        written: [0, 1, 3, 4]
            .map(|number| (number * length, step.clone()))
            .to_vec(),
    }]
}

/// Rights that carry others (request C-19), whichever entry asks: 1 carries 0, and
/// lets 2 in.
fn carried() -> Vec<Case> {
    let mut draft = Draft::empty(3);
    draft.kinds[0] = 2;
    draft.put(0, 0, 1);
    draft.carry(1, 0);
    draft.rules.push(rule(1, &[[0, 0, 0]], &[[ENTER, 2, 0, 0]]));
    // 5 × (3 × 2 × 3 + 4) bytes are needed.
    let length = 110;
    let step = vec![0, 0, X, X, X];
    let case = |draft: &Draft, answers: [[u8; 4]; 3], written| Case {
        file: draft.file(),
        entries: sheet(&[0, 2, 1]),
        length: 3 * length,
        code: 0,
        answered: answers.concat(),
        written,
    };
    let steps = vec![
        (0, step.clone()),
        (length, step.clone()),
        (2 * length, step),
    ];
    vec![
        case(
            &draft,
            [[0, 0, 1, 0], [2, UNSAFE, 1, 0], [1, 0, 1, 0]],
            steps,
        ),
        case(
            &draft.carrying_nothing(),
            [[0, 0, 0, 0], [2, 0, 0, 0], [1, 0, 0, 0]],
            Vec::new(),
        ),
    ]
}

/// P1: right 1 is unsafe by one step, right 0 safe after two; a call of its own
/// needs 170 bytes.
fn p1() -> Draft {
    let mut p1 = Draft::empty(2);
    p1.kinds[..3].copy_from_slice(&[2, 2, 1]);
    p1.put(0, 2, 0);
    p1.rules.push(rule(3, &[[0, 0, 2]], &[[ENTER, 1, 1, 2]]));
    p1
}

const NEEDED: usize = 170;
const STEPS: [u8; 10] = [0, 0, 0, 2, X, 0, 0, 1, 2, X];

/// An entry of P1 after the call, where nothing is refused, and its steps.
fn answer(right: u8) -> ([u8; 4], &'static [u8]) {
    match right {
        0 => ([0, 0, 2, 0], &STEPS),
        _ => ([1, UNSAFE, 1, 0], &STEPS[..5]),
    }
}

/// On P1, with these bytes behind the last whole entry and a buffer of this
/// length, in which each part is long enough.
fn answered(rights: &[u8], behind: &[u8], length: usize) -> Case {
    let part = length / rights.len();
    let mut case = Case {
        file: p1().file(),
        entries: [&sheet(rights), behind].concat(),
        length,
        code: 0,
        answered: Vec::new(),
        written: Vec::new(),
    };
    for (number, &right) in rights.iter().enumerate() {
        let (entry, steps) = answer(right);
        case.answered.extend(entry);
        case.written.push((number * part, steps.to_vec()));
    }
    case.answered.extend(behind);
    case
}

/// "a list of entries, each a right and the place for its answer"; "divided into
/// equal parts from the front, one an entry, left-over bytes untouched".
fn entries_and_parts() -> Vec<Case> {
    vec![
        answered(&[1], &[], NEEDED),
        answered(&[0], &[], NEEDED + 1),
        answered(&[0, 1], &[], 2 * NEEDED),
        answered(&[1, 0], &[], 2 * NEEDED),
        // A right may stand in several entries.
        answered(&[1, 1], &[], 2 * NEEDED),
        // One and two bytes are left over; then each part has one more.
        answered(&[1, 1, 1], &[], 3 * NEEDED + 1),
        answered(&[1, 0, 1], &[], 3 * NEEDED + 2),
        answered(&[1, 0, 1], &[], 3 * NEEDED + 3),
        answered(&[0, 1, 0, 1, 1, 0, 1], &[], 7 * NEEDED + 6),
        answered(&[1, 0, 1, 1, 0, 0, 1, 1], &[], 8 * NEEDED),
        answered(&[1, 1, 1, 1, 1, 1, 1, 1], &[], 8 * NEEDED + 7),
        answered(&[1, 1, 1, 1, 1, 1, 1, 1], &[], 8 * BUFFER),
        // Bytes that make no whole entry stay, and are none.
        answered(&[1], &[1], NEEDED),
        answered(&[1, 0], &[1, 8], 2 * NEEDED),
        answered(&[0, 1], &[1, 8, 9], 2 * NEEDED + 1),
        answered(&[1, 1, 1, 1, 1, 1, 1, 1], &[1, 8, 9], 8 * NEEDED),
    ]
}

/// A sheet whose entries are all refused with these numbers.
fn refused(file: Vec<u8>, rights: &[u8], codes: &[u8], length: usize) -> Case {
    let entry = |(&right, &code): (&u8, &u8)| [right, code, 0, 0];
    Case {
        file,
        entries: sheet(rights),
        length,
        code: 0,
        answered: rights.iter().zip(codes).flat_map(entry).collect(),
        written: Vec::new(),
    }
}

/// "Each entry, refused or not, gets the answer and buffer part that a call of
/// its own would give."
fn refused_or_not() -> Vec<Case> {
    let file = p1().file();
    // Refused entries have parts too, between others and at both ends.
    let mut between = answered(&[1, 0, 1, 0, 1], &[], 5 * NEEDED);
    between.refuse(1, 2);
    between.refuse(3, 255);
    let mut ends = answered(&[0, 1, 0], &[], 3 * NEEDED);
    ends.refuse(0, 8);
    ends.refuse(2, 2);
    // A rule of two steps, and 31 names.
    let mut long = p1();
    long.rules.push(rule(1, &[], &[[ENTER, 0, 0, 0]; 2]));
    let mut crowded = p1();
    crowded.kinds[..31].fill(1);
    crowded.cells.fill(0);
    vec![
        between,
        ends,
        refused(file.clone(), &[2, 3], &[21, 21], 2 * NEEDED),
        // Each has a byte less than it needs, though the last could have two
        // bytes more; 21 comes before 24.
        refused(file.clone(), &[1, 0], &[24, 24], 2 * NEEDED - 1),
        refused(file.clone(), &[1, 0, 1], &[24, 24, 24], 3 * NEEDED - 1),
        refused(file.clone(), &[1, 2, 0], &[24, 21, 24], 3 * NEEDED - 1),
        // What is long enough for one call is not for two.
        refused(file.clone(), &[1, 1], &[24, 24], NEEDED),
        refused(file.clone(), &[1; 8], &[24; 8], 7),
        refused(file, &[1; 8], &[24; 8], 0),
        refused(long.file(), &[1, 2, 0], &[22, 21, 22], 0),
        refused(crowded.file(), &[1, 2, 0], &[23, 21, 23], 3 * NEEDED),
    ]
}

/// Nothing is changed.
fn nothing(file: Vec<u8>, entries: Vec<u8>, length: usize, code: u8) -> Case {
    Case {
        file,
        answered: entries.clone(),
        entries,
        length,
        code,
        written: Vec::new(),
    }
}

/// "An empty sheet does nothing", whatever the file is.
fn empty() -> Vec<Case> {
    let good = p1().file();
    let mut all = Vec::new();
    for file in [good.clone(), Vec::new(), vec![9; 4_097], good[..100].into()] {
        for behind in 0..4 {
            all.push(nothing(file.clone(), vec![1; behind], 500, 0));
        }
        all.push(nothing(file, Vec::new(), 0, 0));
    }
    all
}

/// "It refuses with 43, even before the file's refusals, a sheet of more than 8".
fn too_many() -> Vec<Case> {
    let good = p1().file();
    let mut all = Vec::new();
    for file in [good.clone(), Vec::new(), vec![9; 4_097], good[..100].into()] {
        for count in [9, 10, 16, 255, 256, 257, 264, 65_536, 65_537] {
            all.push(nothing(file.clone(), sheet(&vec![1; count]), 1_530, 43));
        }
        let more = [sheet(&[1; 9]), vec![1, 2, 3]].concat();
        all.push(nothing(file, more, 9 * NEEDED, 43));
    }
    // Nor do 21 to 24 come first.
    all.push(nothing(good, sheet(&[2; 9]), 0, 43));
    all
}

/// "a bad file is otherwise each entry's answer", before 21 to 24.
fn bad_files() -> Vec<Case> {
    let good = p1().file();
    let with = |at: usize, byte: u8| {
        let mut file = good.clone();
        file[at] = byte;
        file
    };
    let rights = [1, 2, 255];
    [
        (Vec::new(), 1),
        (with(0, 13), 2),
        (with(1, 1), 3),
        (good[..100].to_vec(), 4),
        (with(2_104, 2), 5),
        (with(18, 3), 6),
        (with(50, 4), 7),
        (with(51, 1), 7),
        (with(2_100, 4), 44),
        (with(2_101, 128), 44),
        (with(2_102, 5), 8),
        (with(2_105, 2), 9),
    ]
    .into_iter()
    .flat_map(|(file, code)| {
        [
            refused(file.clone(), &rights, &[code; 3], 3 * NEEDED),
            refused(file.clone(), &rights, &[code; 3], 0),
            refused(file, &[1; 8], &[code; 8], 8 * NEEDED),
        ]
    })
    .collect()
}

/// The number of steps has its low byte first; under safe too they stand in the
/// part.
fn counts() -> Vec<Case> {
    let mut draft = Draft::empty(2);
    draft.kinds[..17].fill(2);
    draft.rules.push(rule(2, &[], &[[ENTER, 0, 0, 1]]));
    let cells = (0..17u8).flat_map(|a| (0..17u8).map(move |b| [0, a, b, X, X]));
    let steps: Vec<u8> = cells.flatten().collect();
    // 17 × 17 is 289, that is 33 and 256; 5 × (2 × 18 × 19 + 4) bytes are needed.
    let length = 3_440;
    vec![Case {
        file: draft.file(),
        entries: sheet(&[1, 0, 1]),
        length: 3 * length + 1,
        code: 0,
        answered: vec![1, 0, 33, 1, 0, UNSAFE, 1, 0, 1, 0, 33, 1],
        written: vec![
            (0, steps.clone()),
            (length, steps[..5].to_vec()),
            (2 * length, steps),
        ],
    }]
}
