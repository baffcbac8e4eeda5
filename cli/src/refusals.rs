//! What the numbers of refusals mean; docs/REFUSALS.md has the same words and more.

pub struct Refusal {
    pub number: u8,
    pub cause: &'static str,
    pub meaning: &'static str,
    pub remedy: &'static str,
}

/// The refusal of a number. The library gives no other numbers.
pub fn of(number: u8) -> &'static Refusal {
    let found = ALL.iter().find(|refusal| refusal.number == number);
    found.unwrap_or(&UNKNOWN)
}

const UNKNOWN: Refusal = Refusal {
    number: 0,
    cause: "nobody",
    meaning: "a number that this program does not know",
    remedy: "see that program and library are of one version",
};

const WRITER: &str = "whoever wrote the file";
const RUNNER: &str = "whoever runs or replays";
const ASKER: &str = "whoever asks for a verdict";

const fn refusal(
    number: u8,
    cause: &'static str,
    meaning: &'static str,
    remedy: &'static str,
) -> Refusal {
    Refusal {
        number,
        cause,
        meaning,
        remedy,
    }
}

pub const ALL: [Refusal; 22] = [
    refusal(
        1,
        WRITER,
        "the file has fewer than 2 bytes, more than 4,096, or is shorter than its table of \
         pairs",
        "see that this is the file meant, and that it was copied whole; make it again from its \
         table",
    ),
    refusal(
        2,
        WRITER,
        "the number of rights is not 1 to 12",
        "set byte 0 to the number of rights; of a file that is no house file this is often the \
         first refusal",
    ),
    refusal(
        3,
        WRITER,
        "the number of pairs is not 3 to 35",
        "set byte 1 to 3 more than the number of rules; there are at most 32 rules",
    ),
    refusal(
        4,
        WRITER,
        "a section does not begin or end where it must",
        "begin the first section behind the last pair, each next one where the one before ends, \
         and end the last with the file",
    ),
    refusal(
        5,
        WRITER,
        "a section has a wrong length",
        "give the kinds 32 bytes, the cells 2,048, the carries two for each right, and a rule 3 \
         and 3 more for each condition and 4 for each step",
    ),
    refusal(
        6,
        WRITER,
        "a name has a kind above 2",
        "write 0 for an absent name, 1 for an object that is no subject, 2 for a subject",
    ),
    refusal(
        7,
        WRITER,
        "a cell holds a right that the file does not have, or holds one although its row is no \
         subject or its column is absent",
        "clear the cell, or make its row a subject and its column an object",
    ),
    refusal(
        8,
        WRITER,
        "a rule has a number of blanks, conditions or steps that is out of range",
        "give a rule 1 to 4 blanks, 0 to 4 conditions and 1 to 6 steps",
    ),
    refusal(
        9,
        WRITER,
        "a rule names a right or a blank that is not there, or has a step that is none of the \
         six",
        "use rights below the number of rights, blanks below the rule's, step kinds 1 to 6, and \
         0 for right and second blank in kinds 3 to 6",
    ),
    refusal(
        11,
        RUNNER,
        "there is no rule of this number",
        "use a rule of the file; the first one has number 0",
    ),
    refusal(
        12,
        RUNNER,
        "a blank that a condition or a step names has no name from 0 to 31, or more is given \
         than the rule has blanks",
        "give a name, 0 to 31, for each such blank, any number from 0 to 255 for the others, \
         and no more than the rule has blanks",
    ),
    refusal(
        14,
        RUNNER,
        "a condition of the rule is not met",
        "see in the matrix which right is missing from which cell, it or one that carries it; a \
         rule that enters one may have to be run first",
    ),
    refusal(
        15,
        RUNNER,
        "a step of the rule cannot be done",
        "enter and delete need a subject and an existing name, create an absent name, destroy \
         an existing one of its kind",
    ),
    refusal(
        21,
        ASKER,
        "there is no right of this number",
        "ask for a right below the file's number of rights",
    ),
    refusal(
        22,
        ASKER,
        "a rule has more than one step, and the judge takes rules of one step only",
        "judge a table whose rules have one step each",
    ),
    refusal(
        23,
        ASKER,
        "more than 30 names exist, and the judge needs two to spare",
        "destroy a name, or judge a table of 30 names",
    ),
    refusal(
        24,
        ASKER,
        "the buffer for the steps is too short",
        "lend 5 × (g × (subjects + 1) × (names + 2) + 4) bytes; 59,540 are enough for every \
         file. tugcaphi always does",
    ),
    refusal(
        31,
        RUNNER,
        "the length of the trace is no multiple of 5",
        "see that this is the trace meant, and that it was copied whole; a step has 5 bytes",
    ),
    refusal(
        41,
        ASKER,
        "the list of cells is not whole, has more than 8, or has a cell with a right that is not \
         there, a first name that is no subject, or a second that does not exist",
        "give a right, a subject and a name for each of at most 8 cells; what the rules would \
         have to create first cannot be asked for",
    ),
    refusal(
        42,
        ASKER,
        "a name that is to be left out does not exist, is above 31, or is listed before",
        "list each trusted name once, and only names that exist; what the rules would have to \
         create first cannot be left out",
    ),
    refusal(
        43,
        ASKER,
        "the sheet has more than 8 rights",
        "put the rights on several sheets of at most 8. tugcaphi always does",
    ),
    refusal(
        44,
        WRITER,
        "a right carries one that the file does not have",
        "let rights carry rights below the number of rights alone; an entry of 0 carries none",
    ),
];
