//! What a check and a judgement say.

use crate::{raw, Refusal};
use core::fmt;

/// Whether a sheet accepts a run.
#[derive(Clone, Copy, Debug, PartialEq, Eq, Hash)]
#[non_exhaustive]
pub enum Judgement {
    /// The sheet has a path on the run from stage 0 to a finishing stage.
    Accepted,
    /// The sheet has no such path.
    TurnedAway,
}

/// `accepted` or `turned away`.
impl fmt::Display for Judgement {
    fn fmt(&self, f: &mut fmt::Formatter<'_>) -> fmt::Result {
        f.pad(match self {
            Judgement::Accepted => "accepted",
            Judgement::TurnedAway => "turned away",
        })
    }
}

/// What a check says: the verdict, and how far the check went.
#[derive(Clone, Copy, Debug, PartialEq, Eq, Hash)]
pub struct Answer<'b> {
    /// How the check ended.
    pub verdict: Verdict<'b>,
    /// The candidates formed.
    pub joins: u64,
    /// The journal rows used.
    pub used: u64,
    /// The pass in which the check ended, from 1.
    pub pass: u64,
}

/// The lines of the check program, the last one without its end: verdict, joins, used rows and pass, and then what a broken check shows.
///
/// ```
/// // 0 gives 5, and no stage is finishing.
/// let answer = bolfrega::check(&[1, 0, 1, 5, 0, 0, 0, 0], 1_024, 1_000_000, &mut [0; 8]).unwrap().to_string();
/// assert_eq!(answer, "broken 1 1 1\n0 0 1\n5");
/// ```
impl fmt::Display for Answer<'_> {
    fn fmt(&self, f: &mut fmt::Formatter<'_>) -> fmt::Result {
        write!(f, "{} {} {} {}", self.verdict, self.joins, self.used, self.pass)?;
        match &self.verdict {
            Verdict::Broken(broken) => write!(f, "\n{broken}"),
            _ => Ok(()),
        }
    }
}

/// How a check ends. What each verdict means for several procedures is said at [`check_from`](crate::check_from).
#[derive(Clone, Copy, Debug, PartialEq, Eq, Hash)]
#[non_exhaustive]
pub enum Verdict<'b> {
    /// The plan has a run, and the sheet accepts every one.
    Holds,
    /// The plan has a run that the sheet turns away, and this one is shown.
    Broken(Broken<'b>),
    /// The journal had no row left. With more rows the check may come to a verdict.
    Full,
    /// The joins reached the budget. With a larger one the check may come to a verdict.
    Spent,
    /// The plan has no run: procedure 0 never ends.
    Empty,
}

/// The verdict's word: `holds`, `broken`, `full`, `spent`, `empty`.
impl fmt::Display for Verdict<'_> {
    fn fmt(&self, f: &mut fmt::Formatter<'_>) -> fmt::Result {
        f.pad(match self {
            Verdict::Holds => "holds",
            Verdict::Broken(_) => "broken",
            Verdict::Full => "full",
            Verdict::Spent => "spent",
            Verdict::Empty => "empty",
        })
    }
}

/// The journal row at which a check was broken, and its run.
#[derive(Clone, Copy, Debug, PartialEq, Eq, Hash)]
pub struct Broken<'b> {
    /// The row's number.
    pub row: u64,
    /// The number of stage pairs in the row's effect.
    pub pairs: u64,
    /// The run's length; 65,535 means that or more.
    pub length: u64,
    /// The run's step codes, at the front of the buffer that was lent; or [`Refusal::Room`], and the buffer is unchanged.
    pub run: Result<&'b [u8], Refusal>,
}

/// Two lines of the check program: row, pairs and length; then the step codes, or `refused 10`.
impl fmt::Display for Broken<'_> {
    fn fmt(&self, f: &mut fmt::Formatter<'_>) -> fmt::Result {
        writeln!(f, "{} {} {}", self.row, self.pairs, self.length)?;
        match self.run {
            Ok(run) => words(f, run),
            Err(refusal) => write!(f, "refused {}", refusal.number()),
        }
    }
}

/// Writes some values with one blank between them.
pub(crate) fn words<T: fmt::Display>(f: &mut fmt::Formatter<'_>, values: impl IntoIterator<Item = T>) -> fmt::Result {
    let mut blank = "";
    for value in values {
        write!(f, "{blank}{value}")?;
        blank = " ";
    }
    Ok(())
}

/// The answer with a code and details that the library gave, or the refusal.
pub(crate) fn answer(code: u64, details: raw::Details, buffer: &[u8]) -> Result<Answer<'_>, Refusal> {
    let [record, joins, used, pass, ..] = details;
    let verdict = match code {
        raw::HOLDS => Verdict::Holds,
        raw::BROKEN => Verdict::Broken(broken(details, buffer)),
        raw::FULL => Verdict::Full,
        raw::SPENT => Verdict::Spent,
        raw::EMPTY => Verdict::Empty,
        number => return Err(Refusal::from_number(number, record)),
    };
    Ok(Answer {
        verdict,
        joins,
        used,
        pass,
    })
}

/// What a broken answer shows; its run is at the front of the buffer if it was written.
fn broken([.., row, pairs, length, number]: raw::Details, buffer: &[u8]) -> Broken<'_> {
    let run = match number {
        0 => Ok(&buffer[..length as usize]),
        _ => Err(Refusal::from_number(number, 0)),
    };
    Broken { row, pairs, length, run }
}
