//! The C functions of the static library, one to one, on slices in the place of pointers. This is the only module with `unsafe` in it.
//!
//! The functions at the crate's root say the same with Rust's types; these are for whoever wants the plain numbers. What each returns is
//! in `include/bolfrega.h`.
//!
//! A slice goes over as two arguments, its pointer and the number of its elements. Rust's pointer of an empty slice points nowhere, which is
//! fine: the library reads and writes nothing through it. `&mut` keeps what is written apart from all else, as the library asks.

#![allow(unsafe_code)]

use crate::{Row, NEAR_WORDS, TABLE_CELLS};

/// [`Refusal::Length`](crate::Refusal::Length).
pub const REFUSAL_LENGTH: u64 = 1;
/// [`Refusal::Records`](crate::Refusal::Records).
pub const REFUSAL_RECORDS: u64 = 2;
/// [`Refusal::Kind`](crate::Refusal::Kind).
pub const REFUSAL_KIND: u64 = 3;
/// [`Refusal::AboveRange`](crate::Refusal::AboveRange).
pub const REFUSAL_ABOVE_RANGE: u64 = 4;
/// [`Refusal::Unused`](crate::Refusal::Unused).
pub const REFUSAL_UNUSED: u64 = 5;
/// [`Refusal::Order`](crate::Refusal::Order).
pub const REFUSAL_ORDER: u64 = 6;
/// [`Refusal::Count`](crate::Refusal::Count).
pub const REFUSAL_COUNT: u64 = 7;
/// [`Refusal::Journal`](crate::Refusal::Journal).
pub const REFUSAL_JOURNAL: u64 = 8;
/// [`Refusal::Row`](crate::Refusal::Row).
pub const REFUSAL_ROW: u64 = 9;
/// [`Refusal::Room`](crate::Refusal::Room).
pub const REFUSAL_ROOM: u64 = 10;
/// [`Refusal::Run`](crate::Refusal::Run).
pub const REFUSAL_RUN: u64 = 11;
/// [`Refusal::Remark`](crate::Refusal::Remark).
pub const REFUSAL_REMARK: u64 = 12;
/// [`Refusal::LongRun`](crate::Refusal::LongRun).
pub const REFUSAL_LONG_RUN: u64 = 13;
/// [`Refusal::Table`](crate::Refusal::Table).
pub const REFUSAL_TABLE: u64 = 14;
/// [`Refusal::List`](crate::Refusal::List).
pub const REFUSAL_LIST: u64 = 15;
/// [`Refusal::WideLength`](crate::Refusal::WideLength).
pub const REFUSAL_WIDE_LENGTH: u64 = 16;
/// [`Refusal::LongBody`](crate::Refusal::LongBody).
pub const REFUSAL_LONG_BODY: u64 = 17;
/// [`Refusal::Chains`](crate::Refusal::Chains).
pub const REFUSAL_CHAINS: u64 = 18;

/// The kind of a record, its first byte: a rule.
pub const RULE: u8 = 1;
/// A move.
pub const MOVE: u8 = 2;
/// A finishing stage.
pub const FINISHING: u8 = 3;

/// [`check`]: the plan has a run, and the sheet accepts every one. [`check_from`]: each member has one, and the sheet accepts
/// every run of every member.
pub const HOLDS: u64 = 100;
/// [`check`]: a run of the plan is turned away. [`check_from`]: a run of a member is.
pub const BROKEN: u64 = 101;
/// [`check`], [`check_from`]: the journal had no row left.
pub const FULL: u64 = 102;
/// [`check`], [`check_from`]: the joins reached the budget.
pub const SPENT: u64 = 103;
/// [`check`]: the plan has no run. [`check_from`]: some member has none.
pub const EMPTY: u64 = 104;
/// [`judge`]: the sheet accepts the run.
pub const ACCEPTED: u64 = 110;
/// [`judge`]: the sheet turns the run away.
pub const TURNED_AWAY: u64 = 111;
/// [`recognize`]: procedure 0 derives the run.
pub const DERIVED: u64 = 112;
/// [`recognize`]: procedure 0 does not derive the run.
pub const NOT_DERIVED: u64 = 113;
/// [`list`]: the gaps and doubles are listed.
pub const LISTED: u64 = 114;
/// [`widen`], [`narrow`], [`unfold`], [`unfold_from`]: the result is in the output.
pub const CONVERTED: u64 = 115;
/// [`write()`]: the run is in the buffer.
pub const WRITTEN: u64 = 116;
/// [`step`]: a rule; the values are its procedure, the length of its body, and the two symbols.
pub const STEP_RULE: u64 = 117;
/// [`step`]: a move; the values are its stage, its step code, and the stage it leads to.
pub const STEP_MOVE: u64 = 118;
/// [`step`]: a finishing stage, which is the first of the values.
pub const STEP_FINISHING: u64 = 119;
/// [`step`]: there is no record at the place.
pub const STEP_ENDED: u64 = 120;

/// What a check fills in: record, joins, used, pass, row, pairs, length, refused.
pub type Details = [u64; 8];

/// What a check from several procedures fills in: the same, then the procedure of the run that is shown.
pub type DetailsFrom = [u64; 9];

/// What a step fills in: those that the record does not have are 0.
pub type Values = [u64; 4];

/// The cells that [`check_rows`] works in, of any contents.
pub type Cells = [u32; TABLE_CELLS];

/// The words that [`check_rows`] works in, of any contents.
pub type Near = [u64; NEAR_WORDS];

mod c {
    use super::{Cells, Details, DetailsFrom, Near, Row, Values};

    unsafe extern "C" {
        pub safe fn bolfrega_version() -> u64;
        pub fn bolfrega_refusal(file: *const u8, file_length: usize, record: *mut u64) -> u64;
        pub fn bolfrega_step(
            file: *const u8,
            file_length: usize,
            from: usize,
            record: *mut u64,
            values: *mut Values,
            next: *mut u64,
        ) -> u64;
        pub fn bolfrega_moves(file: *const u8, file_length: usize, offset: *mut u64, length: *mut u64);
        pub fn bolfrega_judge(file: *const u8, file_length: usize, run: *const u8, run_length: usize, record: *mut u64) -> u64;
        pub fn bolfrega_recognize(
            file: *const u8,
            file_length: usize,
            run: *const u8,
            run_length: usize,
            record: *mut u64,
            table: *mut u64,
            cells: usize,
        ) -> u64;
        pub fn bolfrega_list(
            file: *const u8,
            file_length: usize,
            record: *mut u64,
            entries: *mut u64,
            list: *mut u8,
            list_length: usize,
        ) -> u64;
        pub fn bolfrega_widen(
            file: *const u8,
            file_length: usize,
            record: *mut u64,
            length: *mut u64,
            out: *mut u8,
            out_length: usize,
        ) -> u64;
        pub fn bolfrega_narrow(
            file: *const u8,
            file_length: usize,
            record: *mut u64,
            length: *mut u64,
            out: *mut u8,
            out_length: usize,
        ) -> u64;
        pub fn bolfrega_unfold(
            file: *const u8,
            file_length: usize,
            record: *mut u64,
            length: *mut u64,
            out: *mut u8,
            out_length: usize,
        ) -> u64;
        pub fn bolfrega_unfold_from(
            file: *const u8,
            file_length: usize,
            starts: u64,
            record: *mut u64,
            length: *mut u64,
            out: *mut u8,
            out_length: usize,
        ) -> u64;
        pub fn bolfrega_check(
            file: *const u8,
            file_length: usize,
            rows: usize,
            budget: u64,
            details: *mut Details,
            buffer: *mut u8,
            buffer_length: usize,
        ) -> u64;
        pub fn bolfrega_check_from(
            file: *const u8,
            file_length: usize,
            starts: u64,
            rows: usize,
            budget: u64,
            details: *mut DetailsFrom,
            buffer: *mut u8,
            buffer_length: usize,
        ) -> u64;
        pub fn bolfrega_check_rows(
            file: *const u8,
            file_length: usize,
            starts: u64,
            budget: u64,
            journal: *mut Row,
            rows: usize,
            cells: *mut Cells,
            near: *mut Near,
            details: *mut DetailsFrom,
        ) -> u64;
        pub fn bolfrega_write(
            file: *const u8,
            file_length: usize,
            journal: *const Row,
            rows: usize,
            used: usize,
            row: usize,
            record: *mut u64,
            length: *mut u64,
            buffer: *mut u8,
            buffer_length: usize,
        ) -> u64;
    }
}

/// The version of the interface.
pub fn version() -> u64 {
    c::bolfrega_version()
}

/// The number that refuses the file, or 0; `record` becomes the record's number.
pub fn refusal(file: &[u8], record: &mut u64) -> u64 {
    // SAFETY: the pointer and the length are those of one slice, and `record` is lent to this call alone.
    unsafe { c::bolfrega_refusal(file.as_ptr(), file.len(), record) }
}

/// [`STEP_RULE`], [`STEP_MOVE`], [`STEP_FINISHING`], [`STEP_ENDED`] or the number that refuses the record at place `from`; `record` becomes its
/// number if it is refused, `values` what it says, and `next` the place after it.
pub fn step(file: &[u8], from: usize, record: &mut u64, values: &mut Values, next: &mut u64) -> u64 {
    // SAFETY: the pointer and the length are those of one slice, and `record`, `values` and `next` are lent to this call alone.
    unsafe { c::bolfrega_step(file.as_ptr(), file.len(), from, record, values, next) }
}

/// `offset` and `length` become those of the moves in the file, in bytes, and 0 if it is refused.
pub fn moves(file: &[u8], offset: &mut u64, length: &mut u64) {
    // SAFETY: the pointer and the length are those of one slice, and `offset` and `length` are lent to this call alone.
    unsafe { c::bolfrega_moves(file.as_ptr(), file.len(), offset, length) }
}

/// [`ACCEPTED`], [`TURNED_AWAY`] or the number of a refusal; `record` becomes the record's number.
pub fn judge(file: &[u8], run: &[u8], record: &mut u64) -> u64 {
    // SAFETY: each pointer and length are those of one slice, and `record` is lent to this call alone.
    unsafe { c::bolfrega_judge(file.as_ptr(), file.len(), run.as_ptr(), run.len(), record) }
}

/// [`DERIVED`], [`NOT_DERIVED`] or the number of a refusal; `record` becomes the record's number, and `table` shows which procedures derive
/// each stretch of the run.
pub fn recognize(file: &[u8], run: &[u8], record: &mut u64, table: &mut [u64]) -> u64 {
    let (cells, count) = (table.as_mut_ptr(), table.len());
    // SAFETY: each pointer and length are those of one slice, and `record` and `table` are lent to this call alone.
    unsafe { c::bolfrega_recognize(file.as_ptr(), file.len(), run.as_ptr(), run.len(), record, cells, count) }
}

/// [`LISTED`] or the number of a refusal; `record` becomes the record's number, `entries` the number of entries, and the front of `list` the
/// entries.
pub fn list(file: &[u8], record: &mut u64, entries: &mut u64, list: &mut [u8]) -> u64 {
    let (pointer, length) = (list.as_mut_ptr(), list.len());
    // SAFETY: each pointer and length are those of one slice, and `record`, `entries` and `list` are lent to this call alone.
    unsafe { c::bolfrega_list(file.as_ptr(), file.len(), record, entries, pointer, length) }
}

/// [`CONVERTED`] or the number of a refusal; `record` becomes the record's number, `length` the length of the result, and the front of `out` the
/// file in sixteen-byte records.
pub fn widen(file: &[u8], record: &mut u64, length: &mut u64, out: &mut [u8]) -> u64 {
    let (pointer, room) = (out.as_mut_ptr(), out.len());
    // SAFETY: each pointer and length are those of one slice, and `record`, `length` and `out` are lent to this call alone.
    unsafe { c::bolfrega_widen(file.as_ptr(), file.len(), record, length, pointer, room) }
}

/// [`CONVERTED`] or the number of a refusal; `record` becomes the record's number, `length` the length of the result, and the front of `out` the
/// file in eight-byte records.
pub fn narrow(file: &[u8], record: &mut u64, length: &mut u64, out: &mut [u8]) -> u64 {
    let (pointer, room) = (out.as_mut_ptr(), out.len());
    // SAFETY: each pointer and length are those of one slice, and `record`, `length` and `out` are lent to this call alone.
    unsafe { c::bolfrega_narrow(file.as_ptr(), file.len(), record, length, pointer, room) }
}

/// [`CONVERTED`] or the number of a refusal; `record` becomes the record's number, `length` the length of the result, and the front of `out` the
/// unfolded file, in eight-byte records.
pub fn unfold(file: &[u8], record: &mut u64, length: &mut u64, out: &mut [u8]) -> u64 {
    let (pointer, room) = (out.as_mut_ptr(), out.len());
    // SAFETY: each pointer and length are those of one slice, and `record`, `length` and `out` are lent to this call alone.
    unsafe { c::bolfrega_unfold(file.as_ptr(), file.len(), record, length, pointer, room) }
}

/// As [`unfold`], for the set `starts` of starting procedures, bit p for procedure p.
pub fn unfold_from(file: &[u8], starts: u64, record: &mut u64, length: &mut u64, out: &mut [u8]) -> u64 {
    let (pointer, room) = (out.as_mut_ptr(), out.len());
    // SAFETY: each pointer and length are those of one slice, and `record`, `length` and `out` are lent to this call alone.
    unsafe { c::bolfrega_unfold_from(file.as_ptr(), file.len(), starts, record, length, pointer, room) }
}

/// [`HOLDS`], [`BROKEN`], [`FULL`], [`SPENT`], [`EMPTY`] or the number of a refusal; fills in `details`, and writes the run of a broken
/// answer to `buffer`.
pub fn check(file: &[u8], rows: usize, budget: u64, details: &mut Details, buffer: &mut [u8]) -> u64 {
    let (pointer, length) = (buffer.as_mut_ptr(), buffer.len());
    // SAFETY: each pointer and length are those of one slice, and `details` and `buffer` are lent to this call alone.
    unsafe { c::bolfrega_check(file.as_ptr(), file.len(), rows, budget, details, pointer, length) }
}

/// As [`check`], for the set `starts` of starting procedures, bit p for procedure p. The last of `details` becomes the procedure of the run that is
/// shown, and 0 unless the answer is [`BROKEN`].
pub fn check_from(file: &[u8], starts: u64, rows: usize, budget: u64, details: &mut DetailsFrom, buffer: &mut [u8]) -> u64 {
    let (pointer, length) = (buffer.as_mut_ptr(), buffer.len());
    // SAFETY: each pointer and length are those of one slice, and `details` and `buffer` are lent to this call alone.
    unsafe { c::bolfrega_check_from(file.as_ptr(), file.len(), starts, rows, budget, details, pointer, length) }
}

/// As [`check_from`], over the rows of `journal`: the first of them become those of the check, and no run is written. What `cells` and `near` hold
/// afterwards is of no use.
pub fn check_rows(
    file: &[u8],
    starts: u64,
    budget: u64,
    journal: &mut [Row],
    cells: &mut Cells,
    near: &mut Near,
    details: &mut DetailsFrom,
) -> u64 {
    let (pointer, rows) = (journal.as_mut_ptr(), journal.len());
    // SAFETY: each pointer and length are those of one slice, `Row` has the fields of the C struct in their order, and `journal`, `cells`, `near`
    // and `details` are lent to this call alone.
    unsafe { c::bolfrega_check_rows(file.as_ptr(), file.len(), starts, budget, pointer, rows, cells, near, details) }
}

/// [`WRITTEN`] or the number of a refusal; `record` becomes the record's number, `length` the length of the run behind row `row` of the `used` rows
/// of `journal`, and the front of `buffer` the run.
pub fn write(
    file: &[u8],
    journal: &[Row],
    used: usize,
    row: usize,
    record: &mut u64,
    length: &mut u64,
    buffer: &mut [u8],
) -> u64 {
    let (rows, count) = (journal.as_ptr(), journal.len());
    let (pointer, room) = (buffer.as_mut_ptr(), buffer.len());
    // SAFETY: each pointer and length are those of one slice, `Row` has the fields of the C struct in their order, and `record`, `length` and
    // `buffer` are lent to this call alone.
    unsafe {
        c::bolfrega_write(
            file.as_ptr(),
            file.len(),
            rows,
            count,
            used,
            row,
            record,
            length,
            pointer,
            room,
        )
    }
}
