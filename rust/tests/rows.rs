//! Checks over lent rows beside checks that have rows of their own and beside the plain implementation: answers, every row, every run. Then steps and
//! moves beside the whole file.

mod common;

use bolfrega::raw::{self, Cells, DetailsFrom, Near};
use bolfrega::{check_from, check_rows, records, step, write, Journal, Record, Refusal, Row, Starts, Verdict, VerdictRows};
use bolfrega::{LONGEST_RUN, MOST_ROWS, NEAR_WORDS, TABLE_CELLS};
use common::rules::Rules;
use making::{damage, valid_file, Numbers, Size};
use std::fs;
use std::mem::{align_of, offset_of, size_of};

const SMALL: Size = Size {
    procedures: 4,
    rules: 10,
    codes: 4,
    moves: 16,
};

/// Each field stands where the C struct has it.
#[test]
fn layout() {
    let header = include_str!("../../include/bolfrega.h");
    let (_, after) = header.split_once("struct bolfrega_row {\n").unwrap();
    let (fields, _) = after.split_once("\n};").unwrap();
    let mut offset = 0;
    let theirs: Vec<(String, usize)> = fields
        .lines()
        .map(|line| {
            let (field, _) = line.trim().strip_prefix("uint64_t ").unwrap().split_once(';').unwrap();
            let (name, words) = field.split_once('[').map_or((field, 1), |(name, rest)| {
                (name, rest.strip_suffix(']').unwrap().parse().unwrap())
            });
            offset += 8 * words;
            (name.to_string(), offset - 8 * words)
        })
        .collect();
    macro_rules! ours {
        ($($field:ident),*) => { vec![$((stringify!($field).to_string(), offset_of!(Row, $field))),*] };
    }
    assert_eq!(theirs, ours!(procedure, rule, effect, left, right, length, birth, retired));
    assert_eq!((size_of::<Row>(), align_of::<Row>()), (offset, 8));
}

/// What is lent to a check: rows, cells and words with garbage in them, and the rows as they were before.
struct Lent {
    rows: Vec<Row>,
    before: Vec<Row>,
    cells: Box<Cells>,
    near: Box<Near>,
}

impl Lent {
    fn new(numbers: &mut Numbers) -> Lent {
        let mut word = || (numbers.below(1 << 32) as u64) << 32 | numbers.below(1 << 32) as u64;
        let mut row = || Row {
            procedure: word(),
            rule: word(),
            effect: [word(), word(), word(), word()],
            left: word(),
            right: word(),
            length: word(),
            birth: word(),
            retired: word(),
        };
        let rows: Vec<Row> = (0..MOST_ROWS + 1).map(|_| row()).collect();
        let cells: Vec<u32> = (0..TABLE_CELLS).map(|_| word() as u32).collect();
        let near: Vec<u64> = (0..NEAR_WORDS).map(|_| word()).collect();
        Lent {
            before: rows.clone(),
            rows,
            cells: cells.try_into().unwrap(),
            near: near.try_into().unwrap(),
        }
    }

    /// Checks a file over the first `count` rows, and compares all that can be seen. The cells and the words hold what the check before left in them.
    /// Returns the answer, or the refusal.
    fn check(&mut self, file: &[u8], starts: Starts, count: usize, budget: u64) -> Result<bolfrega::AnswerRows, Refusal> {
        self.rows.copy_from_slice(&self.before);
        let what = || format!("over {count} rows from {starts:?}, budget {budget}: {file:?}");
        let mut buffer = vec![0; LONGEST_RUN];
        let alone = check_from(file, starts, count, budget, &mut buffer);

        let mut details: DetailsFrom = [0x5555; 9];
        let mut expected: DetailsFrom = [0x5555; 9];
        let rows = &mut self.rows[..count];
        let number = raw::check_rows(
            file,
            starts.bits(),
            budget,
            rows,
            &mut self.cells,
            &mut self.near,
            &mut details,
        );
        let their = raw::check_from(file, starts.bits(), count, budget, &mut expected, &mut vec![0; LONGEST_RUN]);
        expected[7] = 0;
        assert_eq!((number, details), (their, expected), "{}", what());

        self.rows.copy_from_slice(&self.before);
        let answer = check_rows(file, starts, budget, &mut self.rows[..count], &mut self.cells, &mut self.near);
        let used = answer.map_or(0, |answer| answer.used);
        assert!(self.rows[used..] == self.before[used..], "the rows past {used}, {}", what());
        match (answer, alone) {
            (Ok(answer), Ok(alone)) => {
                self.compare(answer, alone, file, count, &what());
                let plan = plain::read(file).unwrap();
                let searched = plain::search(&plan, starts.bits(), count, budget);
                let rows: Vec<Row> = searched.rows.iter().map(as_lent).collect();
                assert!(self.rows[..used] == rows[..], "the rows, {}", what());
                self.write_all(file, &plan, &searched.rows, count, &what());
            }
            (Err(refusal), Err(expected)) => {
                assert_eq!(refusal, expected, "{}", what());
                assert_eq!(
                    write(file, &self.rows[..count], 1, 0, &mut [0; 9]),
                    Err(refusal),
                    "{}",
                    what()
                );
            }
            other => panic!("{other:?}, {}", what()),
        }
        answer
    }

    /// Compares an answer over `count` rows with that of a check with rows of its own, and the run behind the row of a broken one.
    fn compare(&self, answer: bolfrega::AnswerRows, alone: bolfrega::AnswerFrom<'_>, file: &[u8], count: usize, what: &str) {
        let counts = (answer.joins, answer.used as u64, answer.pass);
        assert_eq!(counts, (alone.answer.joins, alone.answer.used, alone.answer.pass), "{what}");
        assert_eq!(answer.verdict.to_string(), alone.answer.verdict.to_string(), "{what}");
        let (VerdictRows::Broken(row), Verdict::Broken(shown)) = (answer.verdict, alone.answer.verdict) else {
            assert_eq!(answer.to_string(), alone.to_string(), "{what}");
            return;
        };
        let found = (row.row as u64, row.pairs, row.length, Some(row.procedure));
        assert_eq!(found, (shown.row, shown.pairs, shown.length, alone.procedure), "{what}");
        assert_eq!(self.rows[row.row].pairs().count() as u64, row.pairs, "{what}");
        let mut buffer = vec![0; LONGEST_RUN];
        assert_eq!(
            write(file, &self.rows[..count], answer.used, row.row, &mut buffer),
            shown.run,
            "{what}"
        );
    }

    /// Writes the run behind each row, as the plain implementation does it. A short one is derived by the row's procedure.
    fn write_all(&self, file: &[u8], plan: &plain::Plan, rows: &[plain::Row], count: usize, what: &str) {
        let lent = &self.rows[..count];
        for (at, row) in rows.iter().enumerate().take(30) {
            let mut expected = common::patterned(300);
            let mut buffer = expected.clone();
            let expected_length = plain::write_run(plan, rows, at as u16, &mut expected);
            match (write(file, lent, rows.len(), at, &mut buffer), expected_length) {
                (Ok(run), Ok(length)) => {
                    assert_eq!(run.len(), length, "row {at}, {what}");
                    if length <= 8 {
                        assert!(
                            Rules::of(file, 8).derives(row.procedure, run),
                            "row {at} gives {run:?}, {what}"
                        );
                    }
                }
                (Err(refusal), Err(expected)) => assert_eq!(refusal.number(), expected.number.into(), "row {at}, {what}"),
                other => panic!("row {at}: {other:?}, {what}"),
            }
            assert!(buffer == expected, "the buffer after row {at}, {what}");
        }
        let refused = |used, row| write(file, lent, used, row, &mut []).unwrap_err();
        assert_eq!(refused(rows.len(), rows.len()), Refusal::Row, "{what}");
        assert_eq!(refused(count + 1, 0), Refusal::Row, "{what}");
        assert_eq!(refused(rows.len(), usize::MAX), Refusal::Row, "{what}");
    }
}

/// A row of the plain implementation as the library has it.
fn as_lent(row: &plain::Row) -> Row {
    Row {
        procedure: row.procedure.into(),
        rule: row.rule.into(),
        effect: row.effect.0,
        left: row.left.into(),
        right: row.right.into(),
        length: row.length.into(),
        birth: row.birth.into(),
        retired: row.retired.into(),
    }
}

#[test]
fn samples() {
    let folder = concat!(env!("CARGO_MANIFEST_DIR"), "/../samples");
    let paths = fs::read_dir(folder).unwrap().map(|entry| entry.unwrap().path());
    let mut lent = Lent::new(&mut Numbers::new(91));
    let mut files = 0;
    for path in paths.filter(|path| path.extension().is_some_and(|end| end == "plan")) {
        let file = fs::read(path).unwrap();
        for (starts, count, budget) in [
            (1, 1_024, 20_000),
            (1, 3, 20_000),
            (0, MOST_ROWS, 9),
            (u64::MAX, 64, 500),
            (1, 0, 9),
        ] {
            let _ = lent.check(&file, Starts::from_bits(starts), count, budget);
        }
        files += 1;
    }
    assert!(files > 12, "{files}");
}

#[test]
fn files_at_random() {
    let mut numbers = Numbers::new(92);
    let mut lent = Lent::new(&mut numbers);
    let mut seen = [0; 6];
    for _ in 0..3_000 {
        let mut file = valid_file(&mut numbers, SMALL);
        if numbers.once_in(5) && !file.is_empty() {
            damage(&mut numbers, &mut file, 8);
        }
        let starts = Starts::from_bits(numbers.below(16) as u64);
        let count = numbers.pick(&[0, 1, 2, 5, 20, 1_024, MOST_ROWS, MOST_ROWS + 1]);
        let budget = numbers.pick(&[0, 10, 100, 5_000]);
        seen[match lent.check(&file, starts, count, budget).map(|answer| answer.verdict) {
            Err(_) => 0,
            Ok(VerdictRows::Holds) => 1,
            Ok(VerdictRows::Broken(_)) => 2,
            Ok(VerdictRows::Full) => 3,
            Ok(VerdictRows::Spent) => 4,
            Ok(_) => 5,
        }] += 1;
    }
    assert!(seen.iter().all(|&times| times > 50), "{seen:?}");
}

/// Rows that somebody has changed: what is written all the same is a run of the row's procedure.
#[test]
fn changed_rows() {
    let mut numbers = Numbers::new(93);
    let mut journal = Journal::new(40);
    let (mut refused, mut written) = (0, 0);
    for _ in 0..4_000 {
        let file = valid_file(&mut numbers, SMALL);
        journal.check(&file, Starts::NONE, 3_000).unwrap();
        let mut rows = journal.rows().to_vec();
        if rows.is_empty() {
            continue;
        }
        let used = rows.len();
        let row = &mut rows[numbers.below(used)];
        let value = numbers.pick(&[0, 1, 2, 3, 7, 65_535, u64::MAX]);
        match numbers.below(7) {
            0 => row.procedure = value,
            1 => row.rule = value,
            2 => row.effect[numbers.below(4)] ^= 1 << numbers.below(64),
            3 => row.left = value,
            4 => row.right = value,
            5 => row.length = value,
            _ => row.birth = value,
        }
        let (last, mut buffer) = (used - 1, [0; 200]);
        match write(&file, &rows, used, last, &mut buffer) {
            Ok(run) if run.len() <= 8 => {
                assert!(
                    Rules::of(&file, 8).derives(rows[last].procedure as u8, run),
                    "{run:?} of {rows:?}: {file:?}"
                );
                written += 1;
            }
            Ok(_) => {}
            Err(refusal) => {
                assert!(refusal == Refusal::Row || refusal == Refusal::Room, "{refusal}");
                assert!(buffer == [0; 200], "the buffer after {refusal}");
                refused += 1;
            }
        }
    }
    assert!(refused > 500 && written > 100, "{refused} {written}");
}

/// A journal goes from file to file; a check that is refused leaves what it has.
#[test]
fn journal() {
    let mut journal = Journal::new(1_024);
    assert_eq!(format!("{journal:?}"), "[]");
    let answer = journal.check(&making::plan_b().bytes(), Starts::INITIAL, 1_000_000).unwrap();
    assert_eq!(answer.to_string(), "broken 12 7 4\n6 0 2\nprocedure 0");
    let rows = journal.rows().to_vec();
    assert_eq!(rows.len(), 7);
    assert_eq!(journal.check(&[0], Starts::INITIAL, 9), Err(Refusal::Length));
    assert_eq!(journal.rows(), rows);
    assert_eq!(journal.run(&making::plan_b().bytes(), 6), Ok(vec![1, 3]));
    assert_eq!(journal.write(&making::plan_b().bytes(), 6, &mut [0]), Err(Refusal::Room));
    // The rows of another file.
    assert_eq!(journal.run(&[], 6), Err(Refusal::Row));
    let again = journal.check(&making::plan_a().bytes(), Starts::INITIAL, 1_000_000).unwrap();
    assert_eq!((again.to_string(), journal.rows().len()), ("holds 12 4 4".to_string(), 4));
    for rows in [0, MOST_ROWS + 1] {
        assert_eq!(Journal::new(rows).check(&[], Starts::NONE, 0), Err(Refusal::Journal));
    }
}

/// The records that come by steps from the beginning are those of the file, up to the one that is refused.
#[test]
fn steps_and_moves() {
    let mut numbers = Numbers::new(94);
    let mut seen = [0; 2];
    for _ in 0..4_000 {
        let mut file = valid_file(&mut numbers, SMALL);
        let damaged = numbers.once_in(2) && !file.is_empty();
        if damaged {
            damage(&mut numbers, &mut file, 8);
        }
        let mut found = Vec::new();
        let ended = loop {
            match step(&file, found.len()) {
                Ok(Some(record)) => found.push(record),
                Ok(None) => break Ok(()),
                Err(refusal) => break Err(refusal),
            }
        };
        assert_eq!(ended, bolfrega::refusal(&file), "{file:?}");
        let moves = bolfrega::moves(&file);
        match records(&file) {
            Ok(records) => {
                assert_eq!(found, records.collect::<Vec<_>>(), "{file:?}");
                let count = found.iter().filter(|record| matches!(record, Record::Move { .. })).count();
                assert_eq!(moves.len(), 8 * count, "{file:?}");
                assert!(moves.chunks(8).all(|record| record[0] == raw::MOVE), "{file:?}");
                assert_eq!(step(&file, usize::MAX), Ok(None));
                seen[0] += 1;
            }
            Err(refusal) => {
                assert_eq!(moves, [], "{file:?}");
                assert!(
                    refusal.record().is_none_or(|record| record as usize == found.len()),
                    "{file:?}"
                );
                seen[1] += 1;
            }
        }
    }
    assert!(seen.iter().all(|&times| times > 500), "{seen:?}");
}
