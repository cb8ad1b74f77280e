//! Recorded runs: whether the plan derives one, and which procedures derive each stretch of it.

use crate::{raw, Refusal, CELLS, MOST_STEPS, PROCEDURES};
use core::fmt;
use core::ops::Range;

/// Which procedures derive each stretch of a recorded run; [`recognize`] makes one.
#[derive(Clone, PartialEq, Eq)]
pub struct Derivations {
    table: [u64; CELLS],
    steps: usize,
}

impl Derivations {
    /// Whether procedure 0 derives the whole run.
    pub fn derived(&self) -> bool {
        self.derives(0, 0..self.steps)
    }

    /// Whether a procedure derives a stretch of the run: the steps of `stretch`, counted from 0.
    ///
    /// No procedure above 63 derives anything, and neither does any a stretch that is not within the run.
    pub fn derives(&self, procedure: u8, stretch: Range<usize>) -> bool {
        procedure < PROCEDURES && self.procedures(stretch) >> procedure & 1 == 1
    }

    /// The procedures that derive a stretch, bit p for procedure p; 0 for a stretch that is not within the run.
    pub fn procedures(&self, stretch: Range<usize>) -> u64 {
        let within = stretch.start <= stretch.end && stretch.end <= self.steps;
        if within {
            self.table[cell(stretch.start, stretch.end)]
        } else {
            0
        }
    }

    /// The number of steps of the run.
    pub fn steps(&self) -> usize {
        self.steps
    }

    /// All cells: the stretches from step i up to step j with 0 ≤ i ≤ j ≤ 64, in rising order of i, then j.
    pub fn cells(&self) -> &[u64; CELLS] {
        &self.table
    }
}

/// `derived` or `not derived`: whether procedure 0 derives the whole run.
impl fmt::Display for Derivations {
    fn fmt(&self, f: &mut fmt::Formatter<'_>) -> fmt::Result {
        f.pad(if self.derived() { "derived" } else { "not derived" })
    }
}

impl fmt::Debug for Derivations {
    fn fmt(&self, f: &mut fmt::Formatter<'_>) -> fmt::Result {
        f.debug_struct("Derivations")
            .field("steps", &self.steps)
            .field("derived", &self.derived())
            .finish_non_exhaustive()
    }
}

/// Says which procedures of a file's plan derive each stretch of a recorded run of at most [`MOST_STEPS`] steps. Every step code counts as a
/// step here, whatever the sheet says of it.
///
/// It refuses a file with 1 to 7 or 12, then a run with 11, and then with 13 a run that is longer. It keeps about 36 KiB on the stack, beside
/// the table of the result, 17 KiB by value.
///
/// ```
/// use bolfrega::{recognize, Refusal};
///
/// // 0 gives (procedure 1) 3; 1 gives nothing, or 1.
/// let file = [
///     [1, 0, 2, 129, 3, 0, 0, 0],
///     [1, 1, 0, 0, 0, 0, 0, 0],
///     [1, 1, 1, 1, 0, 0, 0, 0],
/// ]
/// .concat();
/// let found = recognize(&file, &[1, 3])?;
/// assert!(found.derived());
/// assert!(found.derives(1, 0..1) && found.derives(1, 0..0) && found.derives(0, 1..2));
/// assert!(!found.derives(0, 0..1));
/// assert!(!recognize(&file, &[3, 3])?.derived());
/// assert_eq!(recognize(&file, &[3; 65]), Err(Refusal::LongRun));
/// # Ok::<(), Refusal>(())
/// ```
pub fn recognize(file: &[u8], run: &[u8]) -> Result<Derivations, Refusal> {
    let mut found = Derivations {
        table: [0; CELLS],
        steps: run.len(),
    };
    let mut record = 0;
    match raw::recognize(file, run, &mut record, &mut found.table) {
        raw::DERIVED | raw::NOT_DERIVED => Ok(found),
        number => Err(Refusal::from_number(number, record)),
    }
}

/// The cell of the stretch from step `i` up to step `j`.
fn cell(i: usize, j: usize) -> usize {
    i * (2 * MOST_STEPS + 3 - i) / 2 + (j - i)
}
