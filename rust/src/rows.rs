//! Checks over rows that the caller lends, and the runs behind the rows.

use crate::{raw, Refusal, Starts, STAGES};
#[cfg(feature = "alloc")]
use alloc::{boxed::Box, vec, vec::Vec};
use core::fmt;

/// A row of a journal, as the C header has it: eleven words. [`check_rows`] makes them, and `Row::default()` is one to be lent.
#[derive(Clone, Copy, Debug, Default, PartialEq, Eq, Hash)]
#[repr(C)]
pub struct Row {
    /// The procedure whose run it is.
    pub procedure: u64,
    /// The number of the rule, among the file's rules, that it was made by.
    pub rule: u64,
    /// What the run does to stages, as bits; [`Row::leads`] and [`Row::pairs`] say which.
    pub effect: [u64; 4],
    /// The row of the rule's first symbol, if that is a procedure, and else 65,535.
    pub left: u64,
    /// The row of its second symbol, likewise.
    pub right: u64,
    /// The length of the run; 65,535 means that or more.
    pub length: u64,
    /// The pass in which it was stored, from 1.
    pub birth: u64,
    /// The pass in which a smaller one took its place, or 0.
    pub retired: u64,
}

impl Row {
    /// Whether the run leads from one stage to another. From and to a stage above 15 none does.
    pub const fn leads(&self, from: u8, to: u8) -> bool {
        from < STAGES && to < STAGES && self.effect[from as usize / 4] >> (16 * (from % 4) + to) & 1 == 1
    }

    /// The pairs of stages that the run leads from and to, rising.
    ///
    /// ```
    /// let row = bolfrega::Row { effect: [0b10 << 16, 0, 0, 1], ..Default::default() };
    /// assert_eq!(row.pairs().collect::<Vec<_>>(), [(1, 1), (12, 0)]);
    /// ```
    pub fn pairs(&self) -> impl Iterator<Item = (u8, u8)> + '_ {
        let all = (0..STAGES).flat_map(|from| (0..STAGES).map(move |to| (from, to)));
        all.filter(|&(from, to)| self.leads(from, to))
    }
}

/// What a check over lent rows says: as [`AnswerFrom`](crate::AnswerFrom), without a run.
#[derive(Clone, Copy, Debug, PartialEq, Eq, Hash)]
#[non_exhaustive]
pub struct AnswerRows {
    /// How the check ended.
    pub verdict: VerdictRows,
    /// The candidates formed.
    pub joins: u64,
    /// The rows used: the first ones of those that were lent.
    pub used: usize,
    /// The pass in which the check ended, from 1.
    pub pass: u64,
}

/// The lines that [`AnswerFrom`](crate::AnswerFrom) has, but for that of the run.
impl fmt::Display for AnswerRows {
    fn fmt(&self, f: &mut fmt::Formatter<'_>) -> fmt::Result {
        write!(f, "{} {} {} {}", self.verdict, self.joins, self.used, self.pass)?;
        match &self.verdict {
            VerdictRows::Broken(broken) => write!(f, "\n{broken}"),
            _ => Ok(()),
        }
    }
}

/// How a check over lent rows ends. What each verdict means is said at [`check_from`](crate::check_from).
#[derive(Clone, Copy, Debug, PartialEq, Eq, Hash)]
#[non_exhaustive]
pub enum VerdictRows {
    /// Each starting procedure has a run, and the sheet accepts every run.
    Holds,
    /// A run is turned away: the one behind this row.
    Broken(BrokenRow),
    /// There was no row left.
    Full,
    /// The joins reached the budget.
    Spent,
    /// Some starting procedure has no run.
    Empty,
}

/// The verdict's word, as that of [`Verdict`](crate::Verdict).
impl fmt::Display for VerdictRows {
    fn fmt(&self, f: &mut fmt::Formatter<'_>) -> fmt::Result {
        f.pad(match self {
            VerdictRows::Holds => "holds",
            VerdictRows::Broken(_) => "broken",
            VerdictRows::Full => "full",
            VerdictRows::Spent => "spent",
            VerdictRows::Empty => "empty",
        })
    }
}

/// The row at which a check was broken. [`write()`] writes its run.
#[derive(Clone, Copy, Debug, PartialEq, Eq, Hash)]
#[non_exhaustive]
pub struct BrokenRow {
    /// The row's number.
    pub row: usize,
    /// The number of stage pairs in the row's effect.
    pub pairs: u64,
    /// The run's length; 65,535 means that or more.
    pub length: u64,
    /// The procedure whose run it is.
    pub procedure: u8,
}

/// Row, pairs and length; then `procedure` with its number.
impl fmt::Display for BrokenRow {
    fn fmt(&self, f: &mut fmt::Formatter<'_>) -> fmt::Result {
        writeln!(f, "{} {} {}", self.row, self.pairs, self.length)?;
        write!(f, "procedure {}", self.procedure)
    }
}

/// As [`check_from`](crate::check_from), over rows of the caller's own. [`Journal`] has all that is lent here.
///
/// Rows, `cells` and `near` may hold anything. The first rows become those of the check, as many as it used; all others keep their contents, and so
/// do all of them if the call is refused. What `cells` and `near` hold afterwards is of no use. It keeps about 7 KiB on the stack and clears nothing
/// else, so that a check of a tiny file takes about a microsecond.
///
/// It refuses a file with 1 to 7 or 12, and then with 8 rows that are none or more than [`MOST_ROWS`](crate::MOST_ROWS).
///
/// ```
/// use bolfrega::{check_rows, Row, Starts, VerdictRows, NEAR_WORDS, TABLE_CELLS};
///
/// let file = [1, 0, 1, 5, 0, 0, 0, 0]; // 0 gives 5, and no stage is finishing
/// let (mut rows, mut cells, mut near) = ([Row::default(); 16], [0; TABLE_CELLS], [0; NEAR_WORDS]);
/// let answer = check_rows(&file, Starts::INITIAL, 1_000_000, &mut rows, &mut cells, &mut near)?;
/// assert_eq!(answer.to_string(), "broken 1 1 1\n0 0 1\nprocedure 0");
/// let VerdictRows::Broken(broken) = answer.verdict else { panic!("its one run is turned away") };
/// assert_eq!(rows[broken.row].length, 1);
///
/// let mut buffer = [0; 16];
/// assert_eq!(bolfrega::write(&file, &rows, answer.used, broken.row, &mut buffer)?, [5]);
/// # Ok::<(), bolfrega::Refusal>(())
/// ```
pub fn check_rows(
    file: &[u8],
    starts: Starts,
    budget: u64,
    rows: &mut [Row],
    cells: &mut raw::Cells,
    near: &mut raw::Near,
) -> Result<AnswerRows, Refusal> {
    let mut details = raw::DetailsFrom::default();
    let code = raw::check_rows(file, starts.bits(), budget, rows, cells, near, &mut details);
    let [record, joins, used, pass, row, pairs, length, _, procedure] = details;
    let verdict = match code {
        raw::HOLDS => VerdictRows::Holds,
        raw::BROKEN => VerdictRows::Broken(BrokenRow {
            row: row as usize,
            pairs,
            length,
            procedure: procedure as u8,
        }),
        raw::FULL => VerdictRows::Full,
        raw::SPENT => VerdictRows::Spent,
        raw::EMPTY => VerdictRows::Empty,
        number => return Err(Refusal::from_number(number, record)),
    };
    Ok(AnswerRows {
        verdict,
        joins,
        used: used as usize,
        pass,
    })
}

/// Writes the run behind row `row` of a journal, of which `used` rows are used, to the front of `buffer`: that of a broken check, or any other. All
/// other bytes of `buffer` keep their values, and so do all of them with a refusal.
///
/// Whoever made the rows, a run that is written is one of the plan's, from the procedure of that row. It refuses a file with 1 to 7 or 12; then
/// with 8 rows that are none or more than [`MOST_ROWS`](crate::MOST_ROWS); then with 9 and 10. It takes up to 578 KiB of stack, 144 bytes for each
/// row on the way down.
pub fn write<'b>(file: &[u8], rows: &[Row], used: usize, row: usize, buffer: &'b mut [u8]) -> Result<&'b [u8], Refusal> {
    let (mut record, mut length) = (0, 0);
    match raw::write(file, rows, used, row, &mut record, &mut length, buffer) {
        raw::WRITTEN => Ok(&buffer[..length as usize]),
        number => Err(Refusal::from_number(number, record)),
    }
}

/// A journal with rows of its own, and what a check works in. It may be used for one file after the other.
///
/// ```
/// use bolfrega::{Journal, Refusal, Starts};
///
/// let mut journal = Journal::new(1_024);
/// let file = [1, 0, 1, 5, 0, 0, 0, 0, 1, 1, 1, 6, 0, 0, 0, 0]; // 0 gives 5, 1 gives 6, and no stage is finishing
/// let answer = journal.check(&file, Starts::of([1]).unwrap(), 1_000_000)?;
/// assert_eq!(answer.to_string(), "broken 2 2 1\n1 0 1\nprocedure 1");
/// let runs: Vec<_> = (0..journal.rows().len()).map(|row| journal.run(&file, row)).collect();
/// assert_eq!(runs, [Ok(vec![5]), Ok(vec![6])]);
/// assert_eq!(journal.run(&file, 2), Err(Refusal::Row));
/// # Ok::<(), Refusal>(())
/// ```
#[cfg(feature = "alloc")]
#[derive(Clone)]
pub struct Journal {
    rows: Box<[Row]>,
    cells: Box<raw::Cells>,
    near: Box<raw::Near>,
    used: usize,
}

#[cfg(feature = "alloc")]
impl Journal {
    /// A journal of this many rows.
    pub fn new(rows: usize) -> Journal {
        let length = "the length is that of the type";
        Journal {
            rows: vec![Row::default(); rows].into_boxed_slice(),
            cells: vec![0; crate::TABLE_CELLS].try_into().expect(length),
            near: vec![0; crate::NEAR_WORDS].try_into().expect(length),
            used: 0,
        }
    }

    /// As [`check_rows`].
    pub fn check(&mut self, file: &[u8], starts: Starts, budget: u64) -> Result<AnswerRows, Refusal> {
        let answer = check_rows(file, starts, budget, &mut self.rows, &mut self.cells, &mut self.near)?;
        self.used = answer.used;
        Ok(answer)
    }

    /// The rows that the last check used which was not refused.
    pub fn rows(&self) -> &[Row] {
        &self.rows[..self.used]
    }

    /// As [`write()`](crate::write()), of one of [`Journal::rows`]. The file is the one that was checked: with another one, what is written is a
    /// run of that one.
    pub fn write<'b>(&self, file: &[u8], row: usize, buffer: &'b mut [u8]) -> Result<&'b [u8], Refusal> {
        write(file, &self.rows, self.used, row, buffer)
    }

    /// The run behind a row, in memory of its own.
    pub fn run(&self, file: &[u8], row: usize) -> Result<Vec<u8>, Refusal> {
        let mut buffer = vec![0; self.rows().get(row).map_or(0, |row| row.length as usize)];
        self.write(file, row, &mut buffer).map(<[u8]>::to_vec)
    }
}

#[cfg(feature = "alloc")]
impl fmt::Debug for Journal {
    fn fmt(&self, f: &mut fmt::Formatter<'_>) -> fmt::Result {
        f.debug_list().entries(self.rows()).finish()
    }
}
