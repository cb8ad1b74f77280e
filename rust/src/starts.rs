//! Several starting procedures: one file serves many routes, each with its own first procedure.

use crate::answers::{answer, words};
use crate::{raw, Answer, Refusal, PROCEDURES};
#[cfg(feature = "alloc")]
use crate::{Broken, Verdict, LONGEST_RUN};
#[cfg(feature = "alloc")]
use alloc::{vec, vec::Vec};
use core::fmt;

/// A set of starting procedures, each from 0 to 63.
///
/// ```
/// use bolfrega::Starts;
///
/// let starts = Starts::of([0, 5]).expect("no procedure is above 63");
/// assert!(starts.contains(0) && starts.contains(5) && !starts.contains(1));
/// assert_eq!(starts.bits(), 0b10_0001);
/// assert_eq!(Starts::INITIAL.with(5), Some(starts));
/// assert_eq!(starts.procedures().collect::<Vec<_>>(), [0, 5]);
/// // There is no procedure 64.
/// assert_eq!(Starts::INITIAL.with(64), None);
/// assert_eq!(Starts::of([0, 64]), None);
/// ```
#[derive(Clone, Copy, PartialEq, Eq, Hash)]
pub struct Starts(u64);

impl Starts {
    /// No procedure.
    pub const NONE: Starts = Starts(0);

    /// Procedure 0 alone, as [`check`](crate::check) and [`unfold`](crate::unfold) have it.
    pub const INITIAL: Starts = Starts(1);

    /// The procedures whose bits are 1, bit p for procedure p.
    pub const fn from_bits(bits: u64) -> Starts {
        Starts(bits)
    }

    /// Bit p is 1 if procedure p is a member.
    pub const fn bits(self) -> u64 {
        self.0
    }

    /// These procedures; `None` if one is above 63.
    pub fn of(procedures: impl IntoIterator<Item = u8>) -> Option<Starts> {
        procedures.into_iter().try_fold(Starts::NONE, Starts::with)
    }

    /// The members and this procedure; `None` if it is above 63.
    pub const fn with(self, procedure: u8) -> Option<Starts> {
        if procedure < PROCEDURES {
            Some(Starts(self.0 | 1 << procedure))
        } else {
            None
        }
    }

    /// Whether a procedure is a member. None above 63 is.
    pub const fn contains(self, procedure: u8) -> bool {
        procedure < PROCEDURES && self.0 >> procedure & 1 == 1
    }

    /// The members, rising.
    pub fn procedures(self) -> impl Iterator<Item = u8> {
        (0..PROCEDURES).filter(move |&procedure| self.contains(procedure))
    }
}

/// The members, rising, with a blank between them.
impl fmt::Display for Starts {
    fn fmt(&self, f: &mut fmt::Formatter<'_>) -> fmt::Result {
        words(f, self.procedures())
    }
}

impl fmt::Debug for Starts {
    fn fmt(&self, f: &mut fmt::Formatter<'_>) -> fmt::Result {
        f.debug_set().entries(self.procedures()).finish()
    }
}

/// What a check from several procedures says; [`check_from`] gives one.
#[derive(Clone, Copy, Debug, PartialEq, Eq, Hash)]
#[non_exhaustive]
pub struct AnswerFrom<'b> {
    /// The answer, as [`check`](crate::check) gives it.
    pub answer: Answer<'b>,
    /// The procedure whose run a broken answer shows, which is a member; `None` for any other verdict.
    pub procedure: Option<u8>,
}

/// The lines of the answer, and `procedure` with its number after those of a broken one; the last line without its end.
impl fmt::Display for AnswerFrom<'_> {
    fn fmt(&self, f: &mut fmt::Formatter<'_>) -> fmt::Result {
        write!(f, "{}", self.answer)?;
        match self.procedure {
            Some(procedure) => write!(f, "\nprocedure {procedure}"),
            None => Ok(()),
        }
    }
}

/// As [`check`](crate::check), for the runs of every procedure in `starts`. Of procedure 0 alone ([`Starts::INITIAL`]) it says what `check` says.
///
/// `Broken`: a member has a run that the sheet turns away; the first that comes up is shown, whichever member's it is. `Empty`: some member has
/// no run; `Holds`: each has one, and the sheet accepts every run of every member. Without a member ([`Starts::NONE`]) no check is broken or
/// empty: it holds, unless the rows or the joins run out first.
///
/// It refuses what `check` refuses, and keeps about 765 KiB on the stack ([see above](crate#stack)).
///
/// ```
/// use bolfrega::{check_from, Starts, Verdict};
///
/// let file = [
///     [1, 0, 1, 5, 0, 0, 0, 0],   // 0 gives 5
///     [1, 1, 2, 5, 5, 0, 0, 0],   // 1 gives 5 5
///     [1, 2, 2, 5, 130, 0, 0, 0], // 2 gives 5 (procedure 2), and never ends
///     [2, 0, 5, 1, 0, 0, 0, 0],   // from stage 0 on code 5 to stage 1
///     [3, 1, 0, 0, 0, 0, 0, 0],   // stage 1 is finishing
/// ]
/// .concat();
/// let starts = Starts::of([0, 1, 2]).expect("no procedure is above 63");
/// let mut buffer = [0; 64];
/// let told = check_from(&file, starts, 1_024, 1_000_000, &mut buffer)?;
/// assert_eq!(told.procedure, Some(1));
/// let Verdict::Broken(broken) = told.answer.verdict else { panic!("procedure 1 has a run that is turned away") };
/// assert_eq!(broken.run, Ok(&[5, 5][..]));
///
/// let verdict = |starts| check_from(&file, starts, 1_024, 1_000_000, &mut []).map(|told| told.answer.verdict);
/// assert_eq!(verdict(Starts::INITIAL), Ok(Verdict::Holds));
/// assert_eq!(verdict(Starts::INITIAL.with(2).unwrap()), Ok(Verdict::Empty));
/// assert_eq!(verdict(Starts::NONE), Ok(Verdict::Holds));
/// # Ok::<(), bolfrega::Refusal>(())
/// ```
pub fn check_from<'b>(
    file: &[u8],
    starts: Starts,
    rows: usize,
    budget: u64,
    buffer: &'b mut [u8],
) -> Result<AnswerFrom<'b>, Refusal> {
    let mut details = raw::DetailsFrom::default();
    let code = raw::check_from(file, starts.bits(), rows, budget, &mut details, buffer);
    told(code, details, buffer)
}

/// The answer with a code and details that the library gave, or the refusal.
fn told(code: u64, details: raw::DetailsFrom, buffer: &[u8]) -> Result<AnswerFrom<'_>, Refusal> {
    let [shared @ .., procedure] = details;
    Ok(AnswerFrom {
        answer: answer(code, shared, buffer)?,
        procedure: (code == raw::BROKEN).then_some(procedure as u8),
    })
}

/// An answer that borrows nothing: it has the bytes of its run; [`check_owned`] gives one.
#[cfg(feature = "alloc")]
#[derive(Clone, Debug, PartialEq, Eq, Hash)]
pub struct OwnedAnswer {
    code: u64,
    details: raw::DetailsFrom,
    run: Vec<u8>,
}

#[cfg(feature = "alloc")]
impl OwnedAnswer {
    /// The answer, which borrows its run from here.
    pub fn told(&self) -> AnswerFrom<'_> {
        told(self.code, self.details, &self.run).expect("a refusal does not come to be an answer")
    }
}

/// The lines of the answer, as of [`AnswerFrom`].
#[cfg(feature = "alloc")]
impl fmt::Display for OwnedAnswer {
    fn fmt(&self, f: &mut fmt::Formatter<'_>) -> fmt::Result {
        self.told().fmt(f)
    }
}

/// As [`check_from`], with room for every run that can be written, and an answer that borrows nothing.
///
/// ```
/// use bolfrega::{check_owned, OwnedAnswer, Refusal, Starts, PROGRAM_BUDGET, PROGRAM_ROWS};
///
/// fn ask() -> Result<OwnedAnswer, Refusal> {
///     let file = [1, 0, 1, 5, 0, 0, 0, 0]; // 0 gives 5, and no stage is finishing
///     check_owned(&file, Starts::INITIAL, PROGRAM_ROWS, PROGRAM_BUDGET)
/// }
/// assert_eq!(ask()?.told().procedure, Some(0));
/// assert_eq!(ask()?.to_string(), "broken 1 1 1\n0 0 1\n5\nprocedure 0");
/// # Ok::<(), Refusal>(())
/// ```
#[cfg(feature = "alloc")]
pub fn check_owned(file: &[u8], starts: Starts, rows: usize, budget: u64) -> Result<OwnedAnswer, Refusal> {
    let (mut details, mut buffer) = (raw::DetailsFrom::default(), vec![0; LONGEST_RUN]);
    let code = raw::check_from(file, starts.bits(), rows, budget, &mut details, &mut buffer);
    let run = match told(code, details, &buffer)?.answer.verdict {
        Verdict::Broken(Broken { run: Ok(run), .. }) => run.to_vec(),
        _ => Vec::new(),
    };
    Ok(OwnedAnswer { code, details, run })
}
