//! Checks measurement plans against order sheets.
//!
//! A *plan* is a context-free grammar of procedures, an *order sheet* a finite automaton over the same step codes. Both stand in one
//! file of 8-byte records. [`check`] says whether the sheet accepts every run of the plan, and if not it shows a run that is turned
//! away; it also says where a plan has no run at all. The work is done by a library that is proved: each call is proved to give the
//! answer that documents 01 and 02 settle, for every input. This crate only brings its answers into Rust's types. It never panics on
//! an input, however damaged.
//!
//! ```
//! use bolfrega::{check, Verdict, PROGRAM_BUDGET, PROGRAM_ROOM, PROGRAM_ROWS};
//!
//! // Plan B of document 01 with its sheet S: the plan lets an index row (code 2) be left out.
//! let file = [
//!     [1, 0, 2, 129, 3, 0, 0, 0], // 0 gives (procedure 1) 3
//!     [1, 1, 0, 0, 0, 0, 0, 0],   // 1 gives nothing
//!     [1, 1, 2, 1, 130, 0, 0, 0], // 1 gives 1 (procedure 2)
//!     [1, 2, 1, 129, 0, 0, 0, 0], // 2 gives (procedure 1)
//!     [1, 2, 2, 2, 129, 0, 0, 0], // 2 gives 2 (procedure 1)
//!     [2, 0, 1, 1, 0, 0, 0, 0],   // from stage 0 on code 1 to stage 1
//!     [2, 0, 3, 2, 0, 0, 0, 0],   // from stage 0 on code 3 to stage 2
//!     [2, 1, 2, 0, 0, 0, 0, 0],   // from stage 1 on code 2 to stage 0
//!     [3, 2, 0, 0, 0, 0, 0, 0],   // stage 2 is finishing
//! ]
//! .concat();
//!
//! // As the check program does it: 1,024 rows, 1,000,000 joins, 4,096 bytes for a run.
//! let mut buffer = [0; PROGRAM_ROOM];
//! let answer = check(&file, PROGRAM_ROWS, PROGRAM_BUDGET, &mut buffer)?;
//! assert_eq!(answer.to_string(), "broken 12 7 4\n6 0 2\n1 3");
//! let Verdict::Broken(broken) = answer.verdict else { panic!("plan B has a run that is turned away") };
//! assert_eq!(broken.run, Ok(&[1, 3][..]));
//! # Ok::<(), bolfrega::Refusal>(())
//! ```
//!
//! # Remarks
//!
//! The step codes from 120 to 127 are *remarks*, notes between steps: a sheet stays in its stage on each of them, and none of its moves is on
//! one ([`Refusal::Remark`]). A plan's rules may use them; they count in a run's length and are written out with it.
//!
//! # Sixteen-byte records
//!
//! Field offices exchange plans in a wider form too, in which a body has up to twelve symbols: byte 0 the kind; of a rule byte 1 the procedure,
//! byte 2 the body's length, bytes 3 to 14 its symbols; of a move and a finishing stage the same bytes as in eight. Byte 15 and all other
//! bytes that are not used are 0. Records rise strictly, and the limits are the same: 1,296 records, 256 rules, 1,024 moves. [`widen`] moves a
//! file over, [`narrow`] back, and [`unfold`] makes the eight-byte file that all other calls take.
//!
//! # Several starting procedures
//!
//! One file serves many routes, each with its own first procedure. [`check_from`] and [`unfold_from`] take the set of these, [`Starts`];
//! [`check`] and [`unfold`] are for procedure 0 alone.
//!
//! # Lent rows
//!
//! A check keeps a journal, a row for each effect that it keeps. [`check_rows`] works over rows of the caller's own, and [`Journal`] has some: the
//! rows can be seen, [`write()`] writes the run behind any of them, and a host that checks many files pays for no clearing.
//!
//! # Linking
//!
//! The build links `libbolfrega.a` from the folder in `BOLFREGA_LIB_DIR`; or from the crate's own folder `lib`, where a release has it; or from
//! `../target/staticlib`, where `tools/build archive` leaves it. The archive is for x86-64 Linux. Without it `cargo doc` works, and nothing
//! else does.
//!
//! The crate is `no_std`. With the feature `alloc`, which is on by default, there are also [`FileBuilder`], [`Journal`] and the calls whose result
//! has memory of its own: [`check_owned`], [`widen`], [`narrow`], [`unfold`], [`unfold_from`]. Without it nothing is allocated.
//!
//! # Stack
//!
//! [`check`], like [`check_from`], keeps its journal (352 KiB) and its tables (about 411 KiB) on the stack, and allocates nothing. Writing a
//! run takes up to 578 KiB more (144 bytes for each row on the way down). A thread that calls it needs 1.5 MiB of stack to be on the safe
//! side; Rust's threads have 2 MiB unless told otherwise.
//!
//! # Time
//!
//! As measured on one core of a server at 2.1 GHz, [`check`] takes some 25 microseconds for any file, then 2 to 20 nanoseconds for most joins,
//! and where hundreds or thousands of rows of one procedure are looked through for each join, from 40 nanoseconds up to one or two microseconds. Joins
//! of rows that were there in the pass before are only counted. A budget of 1,000,000 joins ends a call within about two seconds. [`check_rows`] takes
//! about a microsecond for a tiny file.

#![no_std]
#![deny(unsafe_code)]
#![warn(missing_docs)]

#[cfg(feature = "alloc")]
extern crate alloc;

#[cfg(all(without_archive, not(doc)))]
compile_error!(concat!(
    env!("BOLFREGA_MISSING"),
    " is not there: run `tools/build archive` first, or set BOLFREGA_LIB_DIR to the folder that has libbolfrega.a"
));

mod answers;
#[cfg(feature = "alloc")]
mod builder;
mod gaps;
mod limits;
pub mod raw;
mod recognizing;
mod records;
mod refusal;
mod rows;
mod starts;
mod wide;

use answers::answer;

pub use answers::{Answer, Broken, Judgement, Verdict};
#[cfg(feature = "alloc")]
pub use builder::FileBuilder;
pub use gaps::{gaps, Gap, Gaps};
pub use limits::*;
pub use recognizing::{recognize, Derivations};
pub use records::{moves, procedure, records, step, wide_records, wide_refusal, Record, Records, Symbol};
pub use refusal::Refusal;
#[cfg(feature = "alloc")]
pub use rows::Journal;
pub use rows::{check_rows, write, AnswerRows, BrokenRow, Row, VerdictRows};
pub use starts::{check_from, AnswerFrom, Starts};
#[cfg(feature = "alloc")]
pub use starts::{check_owned, OwnedAnswer};
#[cfg(feature = "alloc")]
pub use wide::{narrow, unfold, unfold_from, widen};
pub use wide::{narrow_into, unfold_from_into, unfold_into, widen_into};

/// The version of the library's interface that this crate is written for. [`version`] is this or above.
pub const VERSION: u64 = 3;

/// The version of the library's interface. Since 2 it has [`check_from`] and [`unfold_from_into`], and since 3 [`check_rows`], [`write()`],
/// [`step`] and [`moves`].
///
/// ```
/// assert!(bolfrega::version() >= bolfrega::VERSION);
/// ```
pub fn version() -> u64 {
    raw::version()
}

/// Reads a file, and says why it is refused if it is: 1 to 7 or 12.
///
/// ```
/// use bolfrega::{refusal, Refusal};
///
/// assert_eq!(refusal(&[]), Ok(()));
/// assert_eq!(refusal(&[3, 0, 0]), Err(Refusal::Length));
/// // The second record does not exceed the first.
/// let twice = [3, 0, 0, 0, 0, 0, 0, 0, 3, 0, 0, 0, 0, 0, 0, 0];
/// assert_eq!(refusal(&twice), Err(Refusal::Order { record: 1 }));
/// ```
pub fn refusal(file: &[u8]) -> Result<(), Refusal> {
    let mut record = 0;
    match raw::refusal(file, &mut record) {
        0 => Ok(()),
        number => Err(Refusal::from_number(number, record)),
    }
}

/// Judges one run by the sheet in a file. A run is a slice of step codes, one to a byte. On a remark the sheet stays in its stage.
///
/// It refuses a file with 1 to 7 or 12, and then a run with 11.
///
/// ```
/// use bolfrega::{judge, Judgement, Refusal};
///
/// // From stage 0 on code 5 to stage 1, which is finishing.
/// let file = [2, 0, 5, 1, 0, 0, 0, 0, 3, 1, 0, 0, 0, 0, 0, 0];
/// assert_eq!(judge(&file, &[5]), Ok(Judgement::Accepted));
/// assert_eq!(judge(&file, &[5, 5]), Ok(Judgement::TurnedAway));
/// assert_eq!(judge(&file, &[120, 5, 127]), Ok(Judgement::Accepted));
/// assert_eq!(judge(&file, &[128]), Err(Refusal::Run));
/// ```
pub fn judge(file: &[u8], run: &[u8]) -> Result<Judgement, Refusal> {
    let mut record = 0;
    match raw::judge(file, run, &mut record) {
        raw::ACCEPTED => Ok(Judgement::Accepted),
        raw::TURNED_AWAY => Ok(Judgement::TurnedAway),
        number => Err(Refusal::from_number(number, record)),
    }
}

/// Checks a file's plan against its sheet, with a journal of `rows` rows and at most `budget` joins. The runs are those of procedure 0;
/// [`check_from`] is for other procedures.
///
/// The run of a broken answer is written to the front of `buffer`; all other bytes of `buffer` keep their values, and so do all of them
/// with any other answer and with a refusal. It refuses a file with 1 to 7 or 12, and then with 8 a number of rows that is 0 or above
/// [`MOST_ROWS`]. More rows and a larger budget never change an answer that is `Holds`, `Broken` or `Empty`.
///
/// It keeps about 765 KiB on the stack ([see above](crate#stack)).
///
/// ```
/// use bolfrega::{check, Refusal, Verdict};
///
/// // "Procedure 0 gives nothing", and stage 0 is finishing: the one run, the empty one, is accepted.
/// let file = [1, 0, 0, 0, 0, 0, 0, 0, 3, 0, 0, 0, 0, 0, 0, 0];
/// let answer = check(&file, 1_024, 1_000_000, &mut [])?;
/// assert_eq!(answer.verdict, Verdict::Holds);
/// assert_eq!((answer.joins, answer.used, answer.pass), (2, 1, 2));
///
/// assert_eq!(check(&file, 1_024, 1, &mut [])?.verdict, Verdict::Spent);
/// assert_eq!(check(&[], 1_024, 1_000_000, &mut [])?.verdict, Verdict::Empty);
/// assert_eq!(check(&file, 0, 1_000_000, &mut []), Err(Refusal::Journal));
/// # Ok::<(), Refusal>(())
/// ```
pub fn check<'b>(file: &[u8], rows: usize, budget: u64, buffer: &'b mut [u8]) -> Result<Answer<'b>, Refusal> {
    let mut details = raw::Details::default();
    let code = raw::check(file, rows, budget, &mut details, buffer);
    answer(code, details, buffer)
}
