//! A sheet under test beside the reference's, and beside single calls of the
//! judge under test: every byte that is lent, and some around.

use reference::random::Random;
use reference::report::{hex, Group};
use reference::sheet::{sheet, ENTRY, MOST_ENTRIES};

/// What is under test: the sheet, and the judge that answers each entry.
#[derive(Clone, Copy)]
pub struct Library {
    /// File, entries and buffer to 0 or 43.
    pub sheet: fn(&[u8], &mut [u8], &mut [u8]) -> u8,
    /// File, right and buffer to the answer and the number of steps.
    pub judge: fn(&[u8], u8, &mut [u8]) -> (u8, u64),
}

/// What a call gives, and what it leaves.
#[derive(Clone, PartialEq, Eq)]
pub struct Outcome {
    pub code: u8,
    pub entries: Vec<u8>,
    pub buffer: Vec<u8>,
}

impl Outcome {
    /// The answers of the whole entries: code and number of steps.
    pub fn answers(&self) -> impl Iterator<Item = (u8, u16)> + '_ {
        let entries = self.entries.chunks_exact(ENTRY);
        entries.map(|entry| (entry[1], u16::from_le_bytes([entry[2], entry[3]])))
    }

    fn shown(&self) -> String {
        let (code, entries) = (self.code, hex(&self.entries));
        format!("code {code}, entries {entries}")
    }
}

/// One input: the same code and bytes as the reference's. Gives these.
pub fn compare(
    group: &mut Group,
    under_test: Library,
    random: &mut Random,
    file: &[u8],
    entries: &[u8],
    length: usize,
) -> Outcome {
    let before = random.bytes(length);
    let given = call(group, under_test, random, file, entries, &before);
    let mut wanted = Outcome {
        code: 0,
        entries: entries.to_vec(),
        buffer: before.clone(),
    };
    wanted.code = sheet(file, &mut wanted.entries, &mut wanted.buffer);
    group.input(given == wanted, || {
        let differing = |(given, wanted): (&u8, &u8)| given != wanted;
        let mut bytes = given.buffer.iter().zip(&wanted.buffer);
        format!(
            "{}, reference {}, first different byte {:?} of {length}, sheet {}, {}",
            given.shown(),
            wanted.shown(),
            bytes.position(differing),
            hex(entries),
            hex(file)
        )
    });
    let said = by_single_calls(under_test, file, entries, &before, &given);
    group.demand(said.is_ok(), || {
        format!("{said:?}: sheet {}, {}", hex(entries), hex(file))
    });
    wanted
}

/// Bytes on both sides of what is lent for writing, to see that they stay.
const AROUND: usize = 64;

/// Calls what is under test; the file must keep its bytes, and what lies around
/// entries and buffer too.
fn call(
    group: &mut Group,
    under_test: Library,
    random: &mut Random,
    file: &[u8],
    entries: &[u8],
    buffer: &[u8],
) -> Outcome {
    let around = random.bytes(AROUND);
    let within = |lent: &[u8]| [&around, lent, &around].concat();
    let (mut entries, mut buffer) = (within(entries), within(buffer));
    let kept = file.to_vec();
    fn lent(bytes: &mut [u8]) -> &mut [u8] {
        let end = bytes.len() - AROUND;
        &mut bytes[AROUND..end]
    }
    let code = (under_test.sheet)(file, lent(&mut entries), lent(&mut buffer));
    let outcome = Outcome {
        code,
        entries: lent(&mut entries).to_vec(),
        buffer: lent(&mut buffer).to_vec(),
    };
    let good =
        file == kept && entries == within(&outcome.entries) && buffer == within(&outcome.buffer);
    group.demand(good, || {
        format!("file or bytes around changed: {}", outcome.shown())
    });
    outcome
}

/// The sentences of the request, with the judge under test for "a call of its
/// own". The reference has no part.
fn by_single_calls(
    under_test: Library,
    file: &[u8],
    entries: &[u8],
    before: &[u8],
    given: &Outcome,
) -> Result<(), String> {
    let count = entries.len() / ENTRY;
    if count > MOST_ENTRIES {
        let kept = given.entries == entries && given.buffer == before;
        return match given.code == 43 && kept {
            true => Ok(()),
            false => Err(format!("{count} entries: {}", given.shown())),
        };
    }
    let mut wanted = (Vec::new(), Vec::new());
    for number in 0..count {
        let length = before.len() / count;
        let right = entries[ENTRY * number];
        let mut own = before[number * length..][..length].to_vec();
        let (code, steps) = (under_test.judge)(file, right, &mut own);
        wanted.0.extend([right, code]);
        wanted.0.extend((steps as u16).to_le_bytes());
        wanted.1.extend(own);
    }
    // Left-over bytes, and those behind the last whole entry.
    wanted.0.extend(&entries[wanted.0.len()..]);
    wanted.1.extend(&before[wanted.1.len()..]);
    match given.code {
        0 if given.entries != wanted.0 => Err(format!(
            "single calls give {}, the sheet {}",
            hex(&wanted.0),
            hex(&given.entries)
        )),
        0 if given.buffer != wanted.1 => Err("single calls leave another buffer".to_string()),
        0 => Ok(()),
        code => Err(format!("{count} entries: {code}")),
    }
}
