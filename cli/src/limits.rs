//! The limits of matrix, rule, file and trace, each stated once.

/// Names are numbered 0 to 31.
pub const NAMES: usize = 32;
/// A file has 1 to 12 rights.
pub const RIGHTS: usize = 12;
pub const RULES: usize = 32;
/// A rule has 1 to 4 blanks; a step of a trace has as many actuals.
pub const BLANKS: usize = 4;
pub const CONDITIONS: usize = 4;
/// A rule has 1 to 6 steps.
pub const STEPS: usize = 6;

pub const FILE_BYTES: usize = 4096;
/// Number of rights, number of pairs.
pub const HEADER_BYTES: usize = 2;
/// Offset and length of a section.
pub const PAIR_BYTES: usize = 4;
/// The sections that a rule run changes: kinds and cells.
pub const MATRIX_SECTIONS: usize = 2;
/// The sections before the rules: kinds, cells and what the rights carry.
pub const FIXED_SECTIONS: usize = MATRIX_SECTIONS + 1;
/// A set of rights, a cell or what a right carries: a bit for each right, in whole bytes.
pub const SET_BYTES: usize = RIGHTS.div_ceil(u8::BITS as usize);
pub const CELLS_BYTES: usize = SET_BYTES * NAMES * NAMES;
/// Blanks, conditions, steps.
pub const RULE_HEAD_BYTES: usize = 3;
pub const CONDITION_BYTES: usize = 3;
pub const OPERATION_BYTES: usize = 4;

/// A step of a trace: a rule and its actuals.
pub const STEP_BYTES: usize = 1 + BLANKS;
/// What an actual holds in a position that the rule does not have.
pub const UNUSED: u8 = 255;

/// The judge takes files of at most 30 names.
pub const JUDGED_NAMES: usize = 30;
/// A buffer for the judge, long enough for every file that it takes.
pub const BUFFER_BYTES: usize = STEP_BYTES * (RIGHTS * (JUDGED_NAMES + 1) * (JUDGED_NAMES + 2) + 4);

/// A sheet has at most 8 rights.
pub const SHEET_RIGHTS: usize = 8;
/// An entry of a sheet: right, code of the answer, number of steps, low byte first.
pub const ENTRY_BYTES: usize = 4;

/// A press asks for at most 8 cells at once.
pub const NEEDED_CELLS: usize = 8;
/// A cell that is asked for: right, subject, name.
pub const NEEDED_BYTES: usize = 3;
