//! Every call on files at random and damaged, with its answer by the plain implementation: what the tests from C, Rust and Python go through.
//!
//! A call and its answer are a line of text, so that a host in any language can read it:
//!
//! ```text
//! file HEX
//! run HEX
//! NAME PARAMETER.. = NUMBER RESULT.. SUM
//! ```
//!
//! A line `file` or `run` is for all calls that follow. The parameters are those of the C function, without file, run and places to be set; a
//! buffer, a table or a journal is its length. The results are the places that the call sets: the record, and then entries, length or details; of
//! a step then its values and the next place. The sum is that of the lent area after the call, and stands where there is one. Before the call each
//! byte of an area is `pattern` of its place, and each cell of a table and each word of a row is `CELL`.
//!
//! `moves` has no number: its line has the offset and the length. `write STARTS ROWS BUDGET ROW ROOM` writes a row of the journal that a check over as
//! many rows has left, with as many of them used as that check has said.

use crate::{damage, valid_file, valid_wide_file, Numbers, Size};
use bolfrega::{
    raw, Row, CELLS, FILE_BYTES, FIRST_REMARK, LIST_BYTES, LONGEST_RUN, MOST_RECORDS, MOST_ROWS, NEAR_WORDS, PROGRAM_BUDGET,
    PROGRAM_ROOM, PROGRAM_ROWS, TABLE_CELLS, WIDE_BYTES,
};
use std::cell::RefCell;
use std::{fmt, iter};

/// A cell of a table before a call.
pub const CELL: u64 = 0x5555_5555_5555_5555;

/// The byte at a place of an area before a call. No step code is as high.
pub fn pattern(at: usize) -> u8 {
    200 + (at % 50) as u8
}

/// The sum of an area's bytes: CRC-32, as zlib has it.
pub fn sum(bytes: impl IntoIterator<Item = u8>) -> u32 {
    !bytes
        .into_iter()
        .fold(!0, |sum, byte| TABLE[usize::from(sum as u8 ^ byte)] ^ sum >> 8)
}

const TABLE: [u32; 256] = {
    let mut table = [0; 256];
    let mut at = 0;
    while at < 256 {
        let mut entry = at as u32;
        let mut bit = 0;
        while bit < 8 {
            entry = if entry & 1 == 1 {
                0xedb8_8320 ^ entry >> 1
            } else {
                entry >> 1
            };
            bit += 1;
        }
        table[at] = entry;
        at += 1;
    }
    table
};

/// A call with its parameters.
#[derive(Clone, Copy, Debug, PartialEq, Eq)]
pub enum Call {
    Refusal,
    Judge,
    Recognize {
        cells: usize,
    },
    List {
        room: usize,
    },
    Widen {
        room: usize,
    },
    Narrow {
        room: usize,
    },
    Unfold {
        room: usize,
    },
    UnfoldFrom {
        starts: u64,
        room: usize,
    },
    Check {
        rows: usize,
        budget: u64,
        room: usize,
    },
    CheckFrom {
        starts: u64,
        rows: usize,
        budget: u64,
        room: usize,
    },
    CheckRows {
        starts: u64,
        budget: u64,
        rows: usize,
    },
    Write {
        starts: u64,
        rows: usize,
        budget: u64,
        row: usize,
        room: usize,
    },
    Step {
        from: usize,
    },
    Moves,
}

/// The name and the parameters.
impl fmt::Display for Call {
    fn fmt(&self, f: &mut fmt::Formatter<'_>) -> fmt::Result {
        match self {
            Call::Refusal => write!(f, "refusal"),
            Call::Judge => write!(f, "judge"),
            Call::Recognize { cells } => write!(f, "recognize {cells}"),
            Call::List { room } => write!(f, "list {room}"),
            Call::Widen { room } => write!(f, "widen {room}"),
            Call::Narrow { room } => write!(f, "narrow {room}"),
            Call::Unfold { room } => write!(f, "unfold {room}"),
            Call::UnfoldFrom { starts, room } => write!(f, "unfold_from {starts} {room}"),
            Call::Check { rows, budget, room } => write!(f, "check {rows} {budget} {room}"),
            Call::CheckFrom {
                starts,
                rows,
                budget,
                room,
            } => write!(f, "check_from {starts} {rows} {budget} {room}"),
            Call::CheckRows { starts, budget, rows } => write!(f, "check_rows {starts} {budget} {rows}"),
            Call::Write {
                starts,
                rows,
                budget,
                row,
                room,
            } => write!(f, "write {starts} {rows} {budget} {row} {room}"),
            Call::Step { from } => write!(f, "step {from}"),
            Call::Moves => write!(f, "moves"),
        }
    }
}

/// What a call returns and sets, and the sum of what was lent to it.
#[derive(Clone, Debug, PartialEq, Eq)]
pub struct Outcome {
    pub number: u64,
    pub set: Vec<u64>,
    pub sum: Option<u32>,
}

impl fmt::Display for Outcome {
    fn fmt(&self, f: &mut fmt::Formatter<'_>) -> fmt::Result {
        write!(f, "{}", self.number)?;
        self.set.iter().try_for_each(|word| write!(f, " {word}"))?;
        self.sum.map_or(Ok(()), |sum| write!(f, " {sum}"))
    }
}

/// An area of this many bytes before a call.
fn area(room: usize) -> Vec<u8> {
    (0..room).map(pattern).collect()
}

impl Call {
    /// What the plain implementation has the call do.
    pub fn plainly(self, file: &[u8], run: &[u8]) -> Outcome {
        match self {
            Call::Refusal => told(plain::read(file).map(|_| (0, vec![])), 0, None),
            Call::Judge => {
                let number = |accepted| if accepted { raw::ACCEPTED } else { raw::TURNED_AWAY };
                told(plain::judge(file, run).map(|accepted| (number(accepted), vec![])), 0, None)
            }
            Call::Recognize { cells } => {
                let mut table = vec![CELL; cells];
                let number = |derived| if derived { raw::DERIVED } else { raw::NOT_DERIVED };
                let answer = plain::recognize(file, run, &mut table).map(|derived| (number(derived), vec![]));
                told(answer, 0, Some(sum(table.into_iter().flat_map(u64::to_le_bytes))))
            }
            Call::List { room } => {
                let mut list = area(room);
                let answer = plain::list(file, &mut list).map(|entries| (raw::LISTED, vec![entries as u64]));
                told(answer, 1, Some(sum(list)))
            }
            Call::Widen { room } => converted(room, |out| plain::widen(file, out)),
            Call::Narrow { room } => converted(room, |out| plain::narrow(file, out)),
            Call::Unfold { room } => converted(room, |out| plain::unfold(file, out)),
            Call::UnfoldFrom { starts, room } => converted(room, |out| plain::unfold_from(file, starts, out)),
            Call::Check { rows, budget, room } => {
                let mut outcome = checked(file, plain::INITIAL, rows, budget, room);
                outcome.set.pop();
                outcome
            }
            Call::CheckFrom {
                starts,
                rows,
                budget,
                room,
            } => checked(file, starts, rows, budget, room),
            Call::CheckRows { starts, budget, rows } => {
                let mut outcome = checked(file, starts, rows, budget, LONGEST_RUN);
                outcome.set[REFUSED] = 0;
                let stored = searched(file, starts, rows, budget).map_or(vec![], |search| search.rows);
                let words = stored.iter().flat_map(words).chain(iter::repeat(CELL)).take(ROW_WORDS * rows);
                outcome.sum = Some(sum(words.flat_map(u64::to_le_bytes)));
                outcome
            }
            Call::Write {
                starts,
                rows,
                budget,
                row,
                room,
            } => converted_to(raw::WRITTEN, room, |buffer| {
                let search = searched(file, starts, rows, budget)?;
                if row >= search.rows.len() {
                    return Err(plain::Refusal::new(9));
                }
                plain::write_run(&plain::read(file)?, &search.rows, row as u16, buffer)
            }),
            Call::Step { from } => stepped(file, from),
            Call::Moves => {
                let plan = plain::read(file);
                let of_kind = |kind| file.chunks(8).filter(|record| record[0] == kind).count() as u64;
                let place = plan.map_or([0, 0], |_| [raw::RULE, raw::MOVE].map(|kind| 8 * of_kind(kind)));
                outcome(place[0], &place[1..], None)
            }
        }
    }

    /// What the library does, by the Rust crate's functions on numbers.
    pub fn proved(self, file: &[u8], run: &[u8]) -> Outcome {
        let (mut record, mut length) = (CELL, CELL);
        match self {
            Call::Refusal => {
                let number = raw::refusal(file, &mut record);
                outcome(number, &[record], None)
            }
            Call::Judge => {
                let number = raw::judge(file, run, &mut record);
                outcome(number, &[record], None)
            }
            Call::Recognize { cells } => {
                let mut table = vec![CELL; cells + 2];
                let number = raw::recognize(file, run, &mut record, &mut table[1..=cells]);
                assert!(table[0] == CELL && table[cells + 1] == CELL, "{self} wrote past its table");
                let sum = sum(table[1..=cells].iter().flat_map(|cell| cell.to_le_bytes()));
                outcome(number, &[record], Some(sum))
            }
            Call::List { room } => lent(self, room, |list| {
                let number = raw::list(file, &mut record, &mut length, list);
                (number, vec![record, length])
            }),
            Call::Widen { room } => lent(self, room, |out| {
                let number = raw::widen(file, &mut record, &mut length, out);
                (number, vec![record, length])
            }),
            Call::Narrow { room } => lent(self, room, |out| {
                let number = raw::narrow(file, &mut record, &mut length, out);
                (number, vec![record, length])
            }),
            Call::Unfold { room } => lent(self, room, |out| {
                let number = raw::unfold(file, &mut record, &mut length, out);
                (number, vec![record, length])
            }),
            Call::UnfoldFrom { starts, room } => lent(self, room, |out| {
                let number = raw::unfold_from(file, starts, &mut record, &mut length, out);
                (number, vec![record, length])
            }),
            Call::Check { rows, budget, room } => lent(self, room, |buffer| {
                let mut details = [CELL; 8];
                let number = raw::check(file, rows, budget, &mut details, buffer);
                (number, details.to_vec())
            }),
            Call::CheckFrom {
                starts,
                rows,
                budget,
                room,
            } => lent(self, room, |buffer| {
                let mut details = [CELL; 9];
                let number = raw::check_from(file, starts, rows, budget, &mut details, buffer);
                (number, details.to_vec())
            }),
            Call::CheckRows { starts, budget, rows } => {
                let (number, details, journal) = journal(self, file, starts, rows, budget);
                let words = journal.iter().flat_map(of_row);
                outcome(number, &details, Some(sum(words.flat_map(u64::to_le_bytes))))
            }
            Call::Write {
                starts,
                rows,
                budget,
                row,
                room,
            } => {
                let (_, details, journal) = journal(self, file, starts, rows, budget);
                lent(self, room, |buffer| {
                    let number = raw::write(file, &journal, details[USED] as usize, row, &mut record, &mut length, buffer);
                    (number, vec![record, length])
                })
            }
            Call::Step { from } => {
                let (mut values, mut next) = ([CELL; 4], CELL);
                let number = raw::step(file, from, &mut record, &mut values, &mut next);
                outcome(number, &[&[record], &values[..], &[next]].concat(), None)
            }
            Call::Moves => {
                let (mut offset, mut length) = (CELL, CELL);
                raw::moves(file, &mut offset, &mut length);
                outcome(offset, &[length], None)
            }
        }
    }
}

fn outcome(number: u64, set: &[u64], sum: Option<u32>) -> Outcome {
    Outcome {
        number,
        set: set.to_vec(),
        sum,
    }
}

/// A call of the library on an area with some bytes before and after it, which it must leave.
fn lent(call: Call, room: usize, made: impl FnOnce(&mut [u8]) -> (u64, Vec<u64>)) -> Outcome {
    const BESIDE: usize = 16;
    let mut bytes = vec![0xcc; BESIDE + room + BESIDE];
    let within = &mut bytes[BESIDE..BESIDE + room];
    within.iter_mut().enumerate().for_each(|(at, byte)| *byte = pattern(at));
    let (number, set) = made(within);
    let sum = sum(within.iter().copied());
    let beside = bytes[..BESIDE].iter().chain(&bytes[BESIDE + room..]);
    assert!(beside.into_iter().all(|&byte| byte == 0xcc), "{call} wrote past its area");
    outcome(number, &set, Some(sum))
}

/// The outcome of an answer with what it sets after the record, or of a refusal, which sets `more` words to 0 there.
fn told(answer: Result<(u64, Vec<u64>), plain::Refusal>, more: usize, sum: Option<u32>) -> Outcome {
    let (number, record, rest) = match answer {
        Ok((number, rest)) => (number, 0, rest),
        Err(refusal) => (refusal.number.into(), refusal.record as u64, vec![0; more]),
    };
    let set = [vec![record], rest].concat();
    Outcome { number, set, sum }
}

fn converted(room: usize, conversion: impl FnOnce(&mut [u8]) -> Result<usize, plain::Refusal>) -> Outcome {
    converted_to(raw::CONVERTED, room, conversion)
}

/// The outcome of a call that gives `number`, with the length of what it has put into the area.
fn converted_to(number: u64, room: usize, call: impl FnOnce(&mut [u8]) -> Result<usize, plain::Refusal>) -> Outcome {
    let mut out = area(room);
    let answer = call(&mut out).map(|length| (number, vec![length as u64]));
    told(answer, 1, Some(sum(out)))
}

/// The places of two details.
const USED: usize = 2;
const REFUSED: usize = 7;

/// The words of a row.
const ROW_WORDS: usize = 11;

/// The words of a row of the plain implementation, in the order of the C struct.
fn words(row: &plain::Row) -> [u64; ROW_WORDS] {
    let [a, b, c, d] = row.effect.0;
    let [left, right, length, birth, retired] = [row.left, row.right, row.length, row.birth, row.retired].map(u64::from);
    let (procedure, rule) = (row.procedure.into(), row.rule.into());
    [procedure, rule, a, b, c, d, left, right, length, birth, retired]
}

/// The words of a row that is lent.
fn of_row(row: &Row) -> [u64; ROW_WORDS] {
    let [a, b, c, d] = row.effect;
    let (procedure, rule, left, right) = (row.procedure, row.rule, row.left, row.right);
    [procedure, rule, a, b, c, d, left, right, row.length, row.birth, row.retired]
}

/// A check by the plain implementation, with its rows.
fn searched(file: &[u8], starts: u64, rows: usize, budget: u64) -> Result<plain::Search, plain::Refusal> {
    let plan = plain::read(file)?;
    if rows == 0 || rows > MOST_ROWS {
        return Err(plain::Refusal::new(8));
    }
    Ok(plain::search(&plan, starts, rows, budget))
}

/// A check by the library over rows of `CELL`, with a row before and after them which it must leave: the number, the details, the rows.
fn journal(call: Call, file: &[u8], starts: u64, rows: usize, budget: u64) -> (u64, raw::DetailsFrom, Vec<Row>) {
    let before = Row {
        procedure: CELL,
        rule: CELL,
        effect: [CELL; 4],
        left: CELL,
        right: CELL,
        length: CELL,
        birth: CELL,
        retired: CELL,
    };
    thread_local! {
        // One for all calls: what the call before left in it is as good as anything.
        static WORKED_IN: RefCell<(Box<raw::Cells>, Box<raw::Near>)> = RefCell::new((
            vec![CELL as u32; TABLE_CELLS].try_into().expect("as many"),
            vec![CELL; NEAR_WORDS].try_into().expect("as many"),
        ));
    }
    let (mut journal, mut details) = (vec![before; rows + 2], [CELL; 9]);
    let number = WORKED_IN.with_borrow_mut(|(cells, near)| {
        raw::check_rows(file, starts, budget, &mut journal[1..=rows], cells, near, &mut details)
    });
    assert!(
        journal[0] == before && journal[rows + 1] == before,
        "{call} wrote past its rows"
    );
    (number, details, journal[1..=rows].to_vec())
}

/// A step as the plain implementation reads the file up to the record; the records before it are to be such that it reads them.
fn stepped(file: &[u8], from: usize) -> Outcome {
    let nothing = [0, 0, 0, 0, from as u64];
    let (number, record, rest) = match plain::read(file) {
        Err(refusal) if refusal.number <= 2 => (refusal.number.into(), 0, nothing),
        _ if from >= file.len() / 8 => (raw::STEP_ENDED, 0, nothing),
        _ => match (plain::read(&file[..8 * from + 8]), &file[8 * from..8 * from + 8]) {
            (Err(refusal), _) => (refusal.number.into(), refusal.record as u64, nothing),
            (Ok(_), bytes) => {
                let [kind, first, second, third, fourth] = [bytes[0], bytes[1], bytes[2], bytes[3], bytes[4]].map(u64::from);
                (raw::STEP_RULE - 1 + kind, 0, [first, second, third, fourth, from as u64 + 1])
            }
        },
    };
    outcome(number, &[&[record], &rest[..]].concat(), None)
}

/// A check with its nine details.
fn checked(file: &[u8], starts: u64, rows: usize, budget: u64, room: usize) -> Outcome {
    let mut buffer = area(room);
    let answer = plain::check_from(file, starts, rows, budget, &mut buffer).map(|checked| {
        let said = checked.answer;
        let number = match said.verdict {
            plain::Verdict::Holds => raw::HOLDS,
            plain::Verdict::Broken => raw::BROKEN,
            plain::Verdict::Full => raw::FULL,
            plain::Verdict::Spent => raw::SPENT,
            plain::Verdict::Empty => raw::EMPTY,
        };
        let shown = checked.broken.map_or([0; 4], |broken| {
            let unwritten = broken.written.map_or_else(|refusal| refusal.number, |_| 0);
            [
                broken.pairs.into(),
                broken.length.into(),
                unwritten.into(),
                broken.procedure.into(),
            ]
        });
        let counts = [said.joins, said.used as u64, said.pass.into(), said.row.into()];
        (number, [counts, shown].concat())
    });
    told(answer, 8, Some(sum(buffer)))
}

/// A file with a run, and the calls on them.
#[derive(Clone, Debug)]
pub struct Case {
    pub file: Vec<u8>,
    pub run: Vec<u8>,
    pub calls: Vec<Call>,
}

/// As many cases as asked for, the same ones each time.
pub fn cases(count: usize) -> impl Iterator<Item = Case> {
    let mut numbers = Numbers::new(24);
    (0..count).map(move |at| case(&mut numbers, at))
}

/// The case of a file that is given, with the check program's parameters beside those at random.
pub fn case_of(file: Vec<u8>) -> Case {
    let mut numbers = Numbers::new(25);
    let run = run(&mut numbers, SMALL);
    let mut calls = calls(&mut numbers, &file, SMALL);
    calls.push(Call::Check {
        rows: PROGRAM_ROWS,
        budget: PROGRAM_BUDGET,
        room: PROGRAM_ROOM,
    });
    Case { file, run, calls }
}

const SMALL: Size = Size {
    procedures: 4,
    rules: 10,
    codes: 4,
    moves: 16,
};

/// The case of a number. Half of the files are damaged, a quarter have sixteen-byte records, and one in 101 is large.
fn case(numbers: &mut Numbers, at: usize) -> Case {
    let size = Size {
        procedures: numbers.pick(&[2, 4, 8, 64]),
        rules: numbers.below(16),
        codes: numbers.pick(&[2, 4, 12, 120]),
        moves: numbers.below(30),
    };
    let large = Size {
        procedures: 64,
        rules: numbers.pick(&[256, 300]),
        codes: FIRST_REMARK.into(),
        moves: 1_024,
    };
    let size = if at % 101 == 100 { large } else { size };
    let wide = at % 4 == 3;
    let mut file = if wide {
        valid_wide_file(numbers, size, &[0, 1, 1, 2, 2, 2, 3, 4, 12])
    } else {
        valid_file(numbers, size)
    };
    let width = if wide { 16 } else { 8 };
    let damaged = match at % 4 {
        0 => true,
        1 | 3 => numbers.once_in(2),
        _ => false,
    };
    if damaged {
        for _ in 0..1 + numbers.below(2) {
            if file.len() >= width {
                damage(numbers, &mut file, width);
            }
        }
    }
    if numbers.once_in(40) {
        spoil(numbers, &mut file, width);
    }
    let run = run(numbers, size);
    let calls = calls(numbers, &file, size);
    Case { file, run, calls }
}

/// Puts a move on a remark, or adds records of zeros until there are too many.
fn spoil(numbers: &mut Numbers, file: &mut Vec<u8>, width: usize) {
    if numbers.once_in(3) {
        file.resize(width * (MOST_RECORDS + 1), 0);
    } else if let Some(record) = file.chunks_exact_mut(width).rev().find(|record| record[0] == raw::MOVE) {
        record[2] = FIRST_REMARK + numbers.byte(8);
    }
}

/// A run: mostly short, and once in a while too long for one call or the other, or with a byte that is no code.
fn run(numbers: &mut Numbers, size: Size) -> Vec<u8> {
    let steps = if numbers.once_in(300) {
        numbers.pick(&[64, 65, 65_534, 65_535])
    } else {
        numbers.below(9)
    };
    let mut run: Vec<u8> = (0..steps).map(|_| numbers.byte(size.codes)).collect();
    if !run.is_empty() && numbers.once_in(4) {
        let at = numbers.below(run.len());
        run[at] = numbers.pick(&[FIRST_REMARK, 127, 128, 255]);
    }
    run
}

/// Every call, with parameters at random.
fn calls(numbers: &mut Numbers, file: &[u8], size: Size) -> Vec<Call> {
    let starts = match numbers.below(4) {
        0 => 0,
        1 => 1 << numbers.below(64),
        2 => u64::MAX >> (64 - size.procedures),
        _ => (numbers.below(1 << 32) as u64) << 32 | numbers.below(1 << 32) as u64,
    };
    let (rows, budget) = (
        numbers.pick(&[0, 1, 2, 5, 20, 1_024, 4_096, 4_097]),
        numbers.pick(&[0, 1, 10, 100, 1_000, 1_000]),
    );
    let room = numbers.pick(&[0, 1, 5, 40, 200]);
    let out = |numbers: &mut Numbers, most: usize| numbers.pick(&[most, most, file.len(), 2 * file.len(), file.len() / 2, 0]);
    vec![
        Call::Refusal,
        Call::Judge,
        Call::Recognize {
            cells: if numbers.once_in(20) {
                numbers.pick(&[0, 1, CELLS - 1, CELLS + 1])
            } else {
                CELLS
            },
        },
        Call::List {
            room: if numbers.once_in(20) { LIST_BYTES - 1 } else { LIST_BYTES },
        },
        Call::Widen {
            room: out(numbers, WIDE_BYTES),
        },
        Call::Narrow {
            room: out(numbers, FILE_BYTES),
        },
        Call::Unfold {
            room: out(numbers, FILE_BYTES),
        },
        Call::UnfoldFrom {
            starts,
            room: out(numbers, FILE_BYTES),
        },
        Call::Check { rows, budget, room },
        Call::CheckFrom {
            starts,
            rows,
            budget,
            room,
        },
        Call::CheckRows { starts, budget, rows },
        Call::Write {
            starts,
            rows,
            budget,
            row: numbers.pick(&[0, 0, 1, 2, 3, 6, 20, 5_000]),
            room,
        },
        Call::Step {
            from: place(numbers, file),
        },
        Call::Moves,
    ]
}

/// A place up to the first record that is refused, or up to some past the last one.
fn place(numbers: &mut Numbers, file: &[u8]) -> usize {
    match plain::read(file) {
        Err(refusal) if refusal.number > 2 && numbers.once_in(2) => refusal.record,
        Err(refusal) if refusal.number > 2 => numbers.below(refusal.record + 1),
        _ => numbers.below(file.len() / 8 + 3),
    }
}
