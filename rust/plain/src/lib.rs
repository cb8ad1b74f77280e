//! Document 01, with C-11, C-12 and C-14 to C-18 of document 02, in plain Rust: reading, judging, the check in its working order, run writing,
//! the recognizing of runs, the listing of a sheet's gaps and doubles, and the moving and unfolding of sixteen-byte records.
//!
//! It is written from the papers alone and shares nothing with the proved library. The tests of the crate `bolfrega` compare
//! the two, answer for answer, and the benchmark measures them side by side. Nothing else uses it.
//!
//! The check is there twice. `check` goes through the working order as the paper has it and forms every candidate. `check_semi_naive` is
//! written for speed: it forms only the candidates that the pass before didn't form, and counts the others. Both give the same answer, and
//! their searches the same rows. Unlike the rest, `semi_naive` and `known` were written by someone who had read the proved search, so only
//! `check` is an independent witness.
//!
//! ```
//! // "0 gives nothing", and no stage is finishing: the empty run is turned away.
//! let file = [1, 0, 0, 0, 0, 0, 0, 0];
//! let mut buffer = [0; 16];
//! let checked = plain::check(&file, 1_024, 1_000_000, &mut buffer).unwrap();
//! assert_eq!(checked.answer.verdict, plain::Verdict::Broken);
//! assert_eq!(checked.broken.unwrap().pairs, 16);
//! ```

#![forbid(unsafe_code)]

mod derivations;
mod effect;
mod file;
mod gaps;
mod journal;
mod judging;
mod known;
mod order;
mod semi_naive;
mod wide;
mod writing;

pub use derivations::recognize;
pub use effect::Effect;
pub use file::{read, Body, Plan, Refusal, Rule, Symbol, FIRST_REMARK};
pub use gaps::list;
pub use journal::{Answer, Row, Search, Verdict, ABSENT};
pub use judging::judge;
pub use order::search;
pub use semi_naive::search_semi_naive;
pub use wide::{narrow, unfold, unfold_from, widen};
pub use writing::write_run;

/// The set of procedure 0 alone. A set of procedures is a word, bit p for procedure p (C-18).
pub const INITIAL: u64 = 1;

/// The most rows that a journal may have.
pub const MOST_ROWS: usize = 4_096;

/// What a check of a file gives.
#[derive(Clone, Copy, Debug, PartialEq, Eq)]
pub struct Checked {
    pub answer: Answer,
    /// What a broken answer shows; `None` for the other verdicts.
    pub broken: Option<Broken>,
}

/// The row of a broken answer, and what became of its run.
#[derive(Clone, Copy, Debug, PartialEq, Eq)]
pub struct Broken {
    /// The procedure of the row: the member whose run is turned away.
    pub procedure: u8,
    pub row: u16,
    pub pairs: u32,
    /// The row's length field: 65,535 means that or more.
    pub length: u16,
    /// The number of bytes written at the front of the buffer, or refusal 10.
    pub written: Result<usize, Refusal>,
}

/// Checks a file for procedure 0 alone, with a journal of `rows` rows, and writes the run of a broken answer to `buffer`.
pub fn check(file: &[u8], rows: usize, budget: u64, buffer: &mut [u8]) -> Result<Checked, Refusal> {
    check_from(file, INITIAL, rows, budget, buffer)
}

/// Checks a file for a set of starting procedures, with a journal of `rows` rows, and writes the run of a broken answer to `buffer`.
pub fn check_from(file: &[u8], starts: u64, rows: usize, budget: u64, buffer: &mut [u8]) -> Result<Checked, Refusal> {
    check_by(search, file, starts, rows, budget, buffer)
}

/// Checks a file as `check` does, by semi-naive evaluation.
pub fn check_semi_naive(file: &[u8], rows: usize, budget: u64, buffer: &mut [u8]) -> Result<Checked, Refusal> {
    check_semi_naive_from(file, INITIAL, rows, budget, buffer)
}

/// Checks a file as `check_from` does, by semi-naive evaluation.
pub fn check_semi_naive_from(file: &[u8], starts: u64, rows: usize, budget: u64, buffer: &mut [u8]) -> Result<Checked, Refusal> {
    check_by(search_semi_naive, file, starts, rows, budget, buffer)
}

/// One of the two searches.
type Searching = fn(&Plan, u64, usize, u64) -> Search;

/// What stands around either search: reading the file, and showing the row of a broken answer.
fn check_by(
    searching: Searching,
    file: &[u8],
    starts: u64,
    rows: usize,
    budget: u64,
    buffer: &mut [u8],
) -> Result<Checked, Refusal> {
    let plan = read(file)?;
    if rows == 0 || rows > MOST_ROWS {
        return Err(Refusal::new(8));
    }
    let found = searching(&plan, starts, rows, budget);
    let broken = (found.answer.verdict == Verdict::Broken).then(|| show(&plan, &found, buffer));
    Ok(Checked {
        answer: found.answer,
        broken,
    })
}

/// What is shown of a broken answer's row.
fn show(plan: &Plan, found: &Search, buffer: &mut [u8]) -> Broken {
    let row = found.answer.row;
    let kept = &found.rows[usize::from(row)];
    Broken {
        procedure: kept.procedure,
        row,
        pairs: kept.effect.pairs(),
        length: kept.length,
        written: write_run(plan, &found.rows, row, buffer),
    }
}
