//! The limits of files, runs and journals, and what the check program works with.

/// The most records of a file.
pub const MOST_RECORDS: usize = 1_296;

/// The most rules of a file.
pub const MOST_RULES: usize = 256;

/// The most moves of a file.
pub const MOST_MOVES: usize = 1_024;

/// The most symbols in the body of an eight-byte rule.
pub const MOST_SYMBOLS: usize = 2;

/// The most symbols in the body of a sixteen-byte rule.
pub const MOST_WIDE_SYMBOLS: usize = 12;

/// The bytes of a record.
pub const RECORD_BYTES: usize = 8;

/// The bytes of a record of the wider form.
pub const WIDE_RECORD_BYTES: usize = 16;

/// The number of procedures, which count from 0.
pub const PROCEDURES: u8 = 64;

/// The number of stages, which count from 0.
pub const STAGES: u8 = 16;

/// The number of step codes, which count from 0. A symbol from here on is a procedure.
pub const CODES: u8 = 128;

/// The step codes from this one on are [remarks](crate#remarks).
pub const FIRST_REMARK: u8 = 120;

/// The most rows that a check's journal may have.
pub const MOST_ROWS: usize = 4_096;

/// The cells that [`check_rows`](crate::check_rows) works in.
pub const TABLE_CELLS: usize = 45_952;

/// The words that it works in, beside the cells.
pub const NEAR_WORDS: usize = 28_676;

/// The most steps of a run to be judged or written.
pub const LONGEST_RUN: usize = 65_534;

/// The most steps of a recorded run.
pub const MOST_STEPS: usize = 64;

/// The cells of the table of a recorded run: one for each stretch from step i up to step j with 0 ≤ i ≤ j ≤ 64.
pub const CELLS: usize = 2_145;

/// The bytes of a list buffer: three for each of 16 stages and 120 codes.
pub const LIST_BYTES: usize = 5_760;

/// The most bytes of a file of sixteen-byte records. An output of this length suffices for [`widen_into`](crate::widen_into).
pub const WIDE_BYTES: usize = WIDE_RECORD_BYTES * MOST_RECORDS;

/// The most bytes of a file of eight-byte records. An output of this length suffices for [`narrow_into`](crate::narrow_into),
/// [`unfold_into`](crate::unfold_into) and [`unfold_from_into`](crate::unfold_from_into).
pub const FILE_BYTES: usize = RECORD_BYTES * MOST_RECORDS;

/// The journal rows of the check program of document 01.
pub const PROGRAM_ROWS: usize = 1_024;

/// The joins that the check program allows.
pub const PROGRAM_BUDGET: u64 = 1_000_000;

/// The bytes of the check program's run buffer.
pub const PROGRAM_ROOM: usize = 4_096;
