//! Gaps and doubles of an order sheet: what was forgotten in it, and what stands there more than once.

use crate::{raw, Refusal, LIST_BYTES};
use core::fmt;
use core::iter::FusedIterator;

const ENTRY: usize = 3;

/// A stage and a code whose number of moves is not one.
#[derive(Clone, Copy, Debug, PartialEq, Eq, Hash)]
pub struct Gap {
    /// The stage.
    pub stage: u8,
    /// The step code.
    pub code: u8,
    /// The number of moves from the stage on the code: 0 for a gap, and 2 to 16 for a double.
    pub moves: u8,
}

/// Stage, code and number of moves, with a blank between them.
impl fmt::Display for Gap {
    fn fmt(&self, f: &mut fmt::Formatter<'_>) -> fmt::Result {
        write!(f, "{} {} {}", self.stage, self.code, self.moves)
    }
}

/// The gaps and doubles of a sheet, stages rising, then codes; [`gaps`] makes one.
#[derive(Clone)]
pub struct Gaps {
    list: [u8; LIST_BYTES],
    next: usize,
    end: usize,
}

impl Iterator for Gaps {
    type Item = Gap;

    fn next(&mut self) -> Option<Gap> {
        let at = self.next;
        if at == self.end {
            return None;
        }
        self.next += ENTRY;
        Some(Gap {
            stage: self.list[at],
            code: self.list[at + 1],
            moves: self.list[at + 2],
        })
    }

    fn size_hint(&self) -> (usize, Option<usize>) {
        let left = (self.end - self.next) / ENTRY;
        (left, Some(left))
    }
}

impl ExactSizeIterator for Gaps {}

impl FusedIterator for Gaps {}

impl fmt::Debug for Gaps {
    fn fmt(&self, f: &mut fmt::Formatter<'_>) -> fmt::Result {
        f.debug_list().entries(self.clone()).finish()
    }
}

/// Lists the gaps and doubles of a file's sheet: the pairs of a stage and a code whose number of moves is not one. The stages are 0 and every
/// stage in a move or finishing record, the codes are those that moves are on.
///
/// If there is none, a run of codes that moves are on has exactly one path from each of the stages. It refuses a file with 1 to 7 or 12.
///
/// ```
/// use bolfrega::{gaps, Gap};
///
/// // From stage 0 two moves are on code 1, and from stage 1 there is none on it.
/// let file = [
///     [2, 0, 1, 0, 0, 0, 0, 0],
///     [2, 0, 1, 1, 0, 0, 0, 0],
/// ]
/// .concat();
/// let found: Vec<Gap> = gaps(&file)?.collect();
/// assert_eq!(found, [Gap { stage: 0, code: 1, moves: 2 }, Gap { stage: 1, code: 1, moves: 0 }]);
/// assert_eq!(gaps(&[])?.len(), 0);
/// # Ok::<(), bolfrega::Refusal>(())
/// ```
pub fn gaps(file: &[u8]) -> Result<Gaps, Refusal> {
    let mut gaps = Gaps {
        list: [0; LIST_BYTES],
        next: 0,
        end: 0,
    };
    let (mut record, mut entries) = (0, 0);
    match raw::list(file, &mut record, &mut entries, &mut gaps.list) {
        raw::LISTED => {
            gaps.end = entries as usize * ENTRY;
            Ok(gaps)
        }
        number => Err(Refusal::from_number(number, record)),
    }
}
