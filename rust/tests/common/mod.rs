//! The library and the plain implementation side by side. Each function makes one call on both and insists that they agree in
//! everything: the number returned, what is filled in, each byte of the buffer, and the same again through the crate's own types.

#![allow(dead_code)] // each test file uses some of these

pub mod rules;

use bolfrega::raw::{self, Details, DetailsFrom};
use bolfrega::{Answer, AnswerFrom, Judgement, Refusal, Starts, Verdict};

/// The row of an answer that is not broken.
const NO_ROW: u64 = 65_535;

/// What stands in the places to be filled in before a call.
const BEFORE: u64 = 0x5555_5555_5555_5555;

/// Reads a file. Returns the number, or 0, and the record.
pub fn reading(file: &[u8]) -> (u64, u64) {
    let expected = plain::read(file).map_or_else(numbers, |_| (0, 0));
    let mut record = BEFORE;
    let number = raw::refusal(file, &mut record);
    assert_eq!((number, record), expected, "reading {file:?}");
    assert_eq!(bolfrega::refusal(file).map_or_else(shown, |()| (0, 0)), expected);
    expected
}

/// Judges a run. Returns the code and the record.
pub fn judging(file: &[u8], run: &[u8]) -> (u64, u64) {
    let expected = match plain::judge(file, run) {
        Ok(true) => (raw::ACCEPTED, 0),
        Ok(false) => (raw::TURNED_AWAY, 0),
        Err(refusal) => numbers(refusal),
    };
    let mut record = BEFORE;
    let code = raw::judge(file, run, &mut record);
    assert_eq!((code, record), expected, "judging {run:?} by {file:?}");
    let judgement = |judged| {
        if judged == Judgement::Accepted {
            (raw::ACCEPTED, 0)
        } else {
            (raw::TURNED_AWAY, 0)
        }
    };
    assert_eq!(bolfrega::judge(file, run).map_or_else(shown, judgement), expected);
    expected
}

/// Recognizes a run, over a table of `cells` cells that hold something else. Returns the code, the record and the table.
pub fn recognizing(file: &[u8], run: &[u8], cells: usize) -> (u64, u64, Vec<u64>) {
    let mut table = vec![BEFORE; cells];
    let (code, record) = match plain::recognize(file, run, &mut table) {
        Ok(true) => (raw::DERIVED, 0),
        Ok(false) => (raw::NOT_DERIVED, 0),
        Err(refusal) => numbers(refusal),
    };
    let (mut their_record, mut their_table) = (BEFORE, vec![BEFORE; cells]);
    let their_code = raw::recognize(file, run, &mut their_record, &mut their_table);
    let what = || format!("recognizing {run:?} over {cells} cells by {file:?}");
    assert_eq!((their_code, their_record), (code, record), "{}", what());
    assert!(their_table == table, "the table after {}", what());
    if cells == bolfrega::CELLS {
        match bolfrega::recognize(file, run) {
            Ok(found) => {
                assert_eq!(
                    (found.derived(), &found.cells()[..]),
                    (code == raw::DERIVED, &table[..]),
                    "{}",
                    what()
                );
            }
            Err(refusal) => assert_eq!(shown(refusal), (code, record), "{}", what()),
        }
    }
    (code, record, table)
}

/// Lists the gaps and doubles, over a buffer of `room` bytes that hold something else. Returns the code, the record, the number of entries and
/// the buffer.
pub fn listing(file: &[u8], room: usize) -> (u64, u64, u64, Vec<u8>) {
    let mut list = patterned(room);
    let (code, record, entries) = match plain::list(file, &mut list) {
        Ok(count) => (raw::LISTED, 0, count as u64),
        Err(refusal) => (refusal.number.into(), refusal.record as u64, 0),
    };
    let (mut their_record, mut their_entries, mut their_list) = (BEFORE, BEFORE, patterned(room));
    let their_code = raw::list(file, &mut their_record, &mut their_entries, &mut their_list);
    let what = || format!("listing over {room} bytes: {file:?}");
    assert_eq!(
        (their_code, their_record, their_entries),
        (code, record, entries),
        "{}",
        what()
    );
    assert!(their_list == list, "the buffer after {}", what());
    if room >= bolfrega::LIST_BYTES {
        match bolfrega::gaps(file) {
            Ok(gaps) => {
                assert_eq!(gaps.len() as u64, entries, "{}", what());
                let bytes: Vec<u8> = gaps.flat_map(|gap| [gap.stage, gap.code, gap.moves]).collect();
                assert_eq!(bytes, list[..3 * entries as usize], "{}", what());
            }
            Err(refusal) => assert_eq!(shown(refusal), (code, record), "{}", what()),
        }
    }
    (code, record, entries, list)
}

/// The calls on the two forms of records.
#[derive(Clone, Copy, Debug, PartialEq, Eq)]
pub enum Conversion {
    Widen,
    Narrow,
    Unfold,
    UnfoldFrom(Starts),
}

impl Conversion {
    fn plainly(self, file: &[u8], out: &mut [u8]) -> Result<usize, plain::Refusal> {
        match self {
            Conversion::Widen => plain::widen(file, out),
            Conversion::Narrow => plain::narrow(file, out),
            Conversion::Unfold => plain::unfold(file, out),
            Conversion::UnfoldFrom(starts) => plain::unfold_from(file, starts.bits(), out),
        }
    }

    fn raw(self, file: &[u8], record: &mut u64, length: &mut u64, out: &mut [u8]) -> u64 {
        match self {
            Conversion::Widen => raw::widen(file, record, length, out),
            Conversion::Narrow => raw::narrow(file, record, length, out),
            Conversion::Unfold => raw::unfold(file, record, length, out),
            Conversion::UnfoldFrom(starts) => raw::unfold_from(file, starts.bits(), record, length, out),
        }
    }

    fn into(self, file: &[u8], out: &mut [u8]) -> Result<usize, Refusal> {
        match self {
            Conversion::Widen => bolfrega::widen_into(file, out),
            Conversion::Narrow => bolfrega::narrow_into(file, out),
            Conversion::Unfold => bolfrega::unfold_into(file, out),
            Conversion::UnfoldFrom(starts) => bolfrega::unfold_from_into(file, starts, out),
        }
    }

    fn whole(self, file: &[u8]) -> Result<Vec<u8>, Refusal> {
        match self {
            Conversion::Widen => bolfrega::widen(file),
            Conversion::Narrow => bolfrega::narrow(file),
            Conversion::Unfold => bolfrega::unfold(file),
            Conversion::UnfoldFrom(starts) => bolfrega::unfold_from(file, starts),
        }
    }

    /// The room that always suffices.
    fn most(self) -> usize {
        match self {
            Conversion::Widen => bolfrega::WIDE_BYTES,
            _ => bolfrega::FILE_BYTES,
        }
    }
}

/// Converts a file, over an output of `room` bytes that hold something else, with some more behind it. Returns the code, the record and the
/// result, which is empty if the call is refused.
pub fn converting(call: Conversion, file: &[u8], room: usize) -> (u64, u64, Vec<u8>) {
    let what = || format!("{call:?} over {room} bytes: {file:?}");

    let mut expected = patterned(room + BEHIND);
    let answer = call.plainly(file, &mut expected[..room]).map_err(numbers);
    let (code, record) = answer.map_or_else(|refused| refused, |_| (raw::CONVERTED, 0));
    let length = answer.unwrap_or(0);
    // Whatever the result is, all bytes past it are as they were.
    let before = patterned(room + BEHIND);
    assert!(expected[length..] == before[length..], "past the result of {}", what());

    let (mut their_record, mut their_length, mut out) = (BEFORE, BEFORE, patterned(room + BEHIND));
    let their_code = call.raw(file, &mut their_record, &mut their_length, &mut out[..room]);
    let theirs = (their_code, their_record, their_length);
    assert_eq!(theirs, (code, record, length as u64), "{}", what());
    assert!(out == expected, "the output after {}", what());

    let mut third = patterned(room + BEHIND);
    assert_eq!(call.into(file, &mut third[..room]).map_err(shown), answer, "{}", what());
    assert!(third == expected, "the output after {}", what());
    if room >= call.most() {
        let result = answer.map(|length| expected[..length].to_vec());
        assert_eq!(call.whole(file).map_err(shown), result, "{}", what());
    }
    expected.truncate(length);
    if call == Conversion::Unfold {
        let from_initial = converting(Conversion::UnfoldFrom(Starts::INITIAL), file, room);
        assert!(from_initial == (code, record, expected.clone()), "{}", what());
    }
    (code, record, expected)
}

/// The bytes behind an output, which are not lent.
const BEHIND: usize = 40;

/// Converts a file with each room that matters: more than enough, the result's length, one byte more, one less, none. Returns the code with
/// enough room, the record and the result.
pub fn with_every_room(call: Conversion, file: &[u8]) -> (u64, u64, Vec<u8>) {
    let (code, record, result) = converting(call, file, bolfrega::WIDE_BYTES);
    assert_ne!(code, raw::REFUSAL_ROOM);
    let length = result.len();
    for room in [0, length.saturating_sub(1), length, length + 1] {
        let expected = if code == raw::CONVERTED && room < length {
            (raw::REFUSAL_ROOM, 0)
        } else {
            (code, record)
        };
        let (code, record, _) = converting(call, file, room);
        assert_eq!((code, record), expected, "{call:?} over {room} bytes: {file:?}");
    }
    (code, record, result)
}

/// Checks a file for the set of procedure 0 alone: without and with naming it. The run buffer has `room` bytes. Returns the code, the details
/// and the buffer.
pub fn checking(file: &[u8], rows: usize, budget: u64, room: usize) -> (u64, Details, Vec<u8>) {
    let (code, [details @ .., procedure], buffer) = checking_from(file, Starts::INITIAL, rows, budget, room);
    assert_eq!(procedure, 0, "{file:?}");

    let (mut their_details, mut their_buffer) = ([BEFORE; 8], patterned(room));
    let their_code = raw::check(file, rows, budget, &mut their_details, &mut their_buffer);
    let what = || format!("checking with {rows} rows, budget {budget}, {room} bytes: {file:?}");
    assert_eq!((their_code, their_details), (code, details), "{}", what());
    assert!(their_buffer == buffer, "the buffer after {}", what());

    let mut third = patterned(room);
    let answer = bolfrega::check(file, rows, budget, &mut third);
    assert_eq!(spelled(&answer), (code, details), "{}", what());
    assert!(third == buffer, "the buffer after {}", what());
    (code, details, buffer)
}

/// Checks a file for a set of starting procedures, with a run buffer of `room` bytes and some more behind it. Returns the code, the details and
/// the buffer.
pub fn checking_from(file: &[u8], starts: Starts, rows: usize, budget: u64, room: usize) -> (u64, DetailsFrom, Vec<u8>) {
    let mut buffer = patterned(room + BEHIND);
    let (code, details) = plainly(file, starts, rows, budget, &mut buffer[..room]);

    let (mut their_details, mut their_buffer) = ([BEFORE; 9], patterned(room + BEHIND));
    let their_code = raw::check_from(
        file,
        starts.bits(),
        rows,
        budget,
        &mut their_details,
        &mut their_buffer[..room],
    );
    let what = || format!("checking from {starts:?} with {rows} rows, budget {budget}, {room} bytes: {file:?}");
    assert_eq!((their_code, their_details), (code, details), "{}", what());
    assert!(their_buffer == buffer, "the buffer after {}", what());

    let mut third = patterned(room + BEHIND);
    let answer = bolfrega::check_from(file, starts, rows, budget, &mut third[..room]);
    assert_eq!(spelled_from(&answer), (code, details), "{}", what());
    assert!(third == buffer, "the buffer after {}", what());
    buffer.truncate(room);
    (code, details, buffer)
}

/// A check with 1,024 rows, a budget of 30,000 and some room. Returns the code and the details.
pub fn ordinary(file: &[u8]) -> (u64, Details) {
    let (code, details, _) = checking(file, 1_024, 30_000, 300);
    (code, details)
}

/// A buffer in which each changed byte shows: no step code is 200 or above.
pub fn patterned(room: usize) -> Vec<u8> {
    (0..room).map(|at| 200 + (at % 50) as u8).collect()
}

/// Checks a file with both searches of the plain implementation, which must agree: in the answer, in the bytes of `buffer`, and in each row of
/// the journal.
fn both_searches(
    file: &[u8],
    starts: u64,
    rows: usize,
    budget: u64,
    buffer: &mut [u8],
) -> Result<plain::Checked, plain::Refusal> {
    let what = || format!("semi-naive, from {starts:#x} with {rows} rows, budget {budget}: {file:?}");
    let mut second = buffer.to_vec();
    let checked = plain::check_from(file, starts, rows, budget, buffer);
    let again = plain::check_semi_naive_from(file, starts, rows, budget, &mut second);
    assert_eq!(again, checked, "{}", what());
    assert!(second == buffer, "the buffer after {}", what());
    if checked.is_ok() {
        let plan = plain::read(file).unwrap();
        let every = plain::search(&plan, starts, rows, budget);
        assert!(
            plain::search_semi_naive(&plan, starts, rows, budget) == every,
            "the journal after {}",
            what()
        );
    }
    checked
}

/// What the library is to return and fill in, by the plain implementation.
fn plainly(file: &[u8], starts: Starts, rows: usize, budget: u64, buffer: &mut [u8]) -> (u64, DetailsFrom) {
    let checked = match both_searches(file, starts.bits(), rows, budget, buffer) {
        Ok(checked) => checked,
        Err(refusal) => {
            let (number, record) = numbers(refusal);
            return (number, [record, 0, 0, 0, 0, 0, 0, 0, 0]);
        }
    };
    let said = checked.answer;
    let (pairs, length, refused, procedure) = match checked.broken {
        Some(broken) => (
            broken.pairs,
            broken.length,
            broken.written.map_or_else(|refusal| refusal.number, |_| 0),
            broken.procedure,
        ),
        None => (0, 0, 0, 0),
    };
    let code = match said.verdict {
        plain::Verdict::Holds => raw::HOLDS,
        plain::Verdict::Broken => raw::BROKEN,
        plain::Verdict::Full => raw::FULL,
        plain::Verdict::Spent => raw::SPENT,
        plain::Verdict::Empty => raw::EMPTY,
    };
    let counts = [0, said.joins, said.used as u64, said.pass.into()];
    let shown = [said.row.into(), pairs.into(), length.into(), refused.into()];
    let details = [&counts[..], &shown, &[procedure.into()]].concat();
    (code, details.try_into().unwrap())
}

/// The code and the details that an answer of the crate's own types came from.
fn spelled(answer: &Result<Answer, Refusal>) -> (u64, Details) {
    let answer = match answer {
        Ok(answer) => answer,
        Err(refusal) => return (refusal.number(), [refusal.record().unwrap_or(0), 0, 0, 0, 0, 0, 0, 0]),
    };
    let (code, [row, pairs, length, refused]) = match answer.verdict {
        Verdict::Holds => (raw::HOLDS, [NO_ROW, 0, 0, 0]),
        Verdict::Broken(broken) => {
            let refused = broken.run.map_or_else(Refusal::number, |run| {
                assert_eq!(run.len() as u64, broken.length);
                0
            });
            (raw::BROKEN, [broken.row, broken.pairs, broken.length, refused])
        }
        Verdict::Full => (raw::FULL, [NO_ROW, 0, 0, 0]),
        Verdict::Spent => (raw::SPENT, [NO_ROW, 0, 0, 0]),
        Verdict::Empty => (raw::EMPTY, [NO_ROW, 0, 0, 0]),
        other => panic!("{other:?}"),
    };
    (code, [0, answer.joins, answer.used, answer.pass, row, pairs, length, refused])
}

/// The same of an answer from several procedures.
fn spelled_from(told: &Result<AnswerFrom, Refusal>) -> (u64, DetailsFrom) {
    let (code, details) = spelled(&told.as_ref().map(|told| told.answer).map_err(|&refusal| refusal));
    let procedure = told.as_ref().ok().and_then(|told| told.procedure);
    assert_eq!(procedure.is_some(), code == raw::BROKEN);
    let details = [&details[..], &[procedure.unwrap_or(0).into()]].concat();
    (code, details.try_into().unwrap())
}

fn numbers(refusal: plain::Refusal) -> (u64, u64) {
    (refusal.number.into(), refusal.record as u64)
}

fn shown(refusal: Refusal) -> (u64, u64) {
    (refusal.number(), refusal.record().unwrap_or(0))
}
