//! Making files.

use crate::{raw, refusal, wide_refusal, Refusal, RECORD_BYTES, WIDE_RECORD_BYTES};
use alloc::collections::BTreeSet;
use alloc::vec::Vec;

/// A file under construction, of eight-byte records or of [sixteen-byte records](crate#sixteen-byte-records). Its records stand in rising order
/// whatever the order in which they come, each once.
///
/// ```
/// use bolfrega::{check, procedure, FileBuilder, Refusal};
///
/// let mut plan = FileBuilder::new();
/// plan.rule(0, &[procedure(1), 3]) // 0 gives (procedure 1) 3
///     .rule(1, &[])                // 1 gives nothing
///     .step(0, 3, 2)               // from stage 0 on code 3 to stage 2
///     .finishing(2);
/// assert_eq!(check(&plan.file()?, 1_024, 1_000_000, &mut [])?.to_string(), "holds 5 2 3");
/// // There is no stage 16, and a body has at most two symbols.
/// assert_eq!(FileBuilder::new().finishing(16).file(), Err(Refusal::AboveRange { record: 0 }));
/// assert_eq!(FileBuilder::new().rule(0, &[1, 2, 3]).file(), Err(Refusal::AboveRange { record: 0 }));
/// assert!(FileBuilder::wide().rule(0, &[1, 2, 3]).file().is_ok());
/// # Ok::<(), Refusal>(())
/// ```
#[derive(Clone, Debug, PartialEq, Eq)]
pub struct FileBuilder<const WIDTH: usize = RECORD_BYTES> {
    records: BTreeSet<[u8; WIDTH]>,
}

impl FileBuilder {
    /// A file without records.
    pub fn new() -> FileBuilder {
        FileBuilder::default()
    }

    /// The file, or what refuses it: 2 to 5, 7 or 12.
    pub fn file(&self) -> Result<Vec<u8>, Refusal> {
        let bytes = self.bytes();
        refusal(&bytes)?;
        Ok(bytes)
    }
}

impl FileBuilder<WIDE_RECORD_BYTES> {
    /// A file without records, of the sixteen-byte form.
    pub fn wide() -> FileBuilder<WIDE_RECORD_BYTES> {
        FileBuilder::default()
    }

    /// The file, or what refuses it: 2 to 5, 7 or 12.
    pub fn file(&self) -> Result<Vec<u8>, Refusal> {
        let bytes = self.bytes();
        wide_refusal(&bytes)?;
        Ok(bytes)
    }
}

impl<const WIDTH: usize> Default for FileBuilder<WIDTH> {
    fn default() -> FileBuilder<WIDTH> {
        FileBuilder {
            records: BTreeSet::new(),
        }
    }
}

impl<const WIDTH: usize> FileBuilder<WIDTH> {
    /// Adds the rule that `head` gives the symbols of `body`, at most two, or twelve in the sixteen-byte form. Of a longer body the file has the
    /// length, by which it is refused, and as many symbols as there is room for.
    pub fn rule(&mut self, head: u8, body: &[u8]) -> &mut FileBuilder<WIDTH> {
        let length = u8::try_from(body.len()).unwrap_or(u8::MAX);
        self.add([raw::RULE, head, length].into_iter().chain(body.iter().copied()))
    }

    /// Adds the move from one stage to another on a step code.
    pub fn step(&mut self, from: u8, code: u8, to: u8) -> &mut FileBuilder<WIDTH> {
        self.add([raw::MOVE, from, code, to])
    }

    /// Adds the moves of a code that takes stage a to `to[a]`.
    pub fn mapping<const STAGES: usize>(&mut self, code: u8, to: [u8; STAGES]) -> &mut FileBuilder<WIDTH> {
        for (from, &to) in (0..=u8::MAX).zip(&to) {
            self.step(from, code, to);
        }
        self
    }

    /// Adds a finishing stage.
    pub fn finishing(&mut self, stage: u8) -> &mut FileBuilder<WIDTH> {
        self.add([raw::FINISHING, stage])
    }

    /// Adds the record with these first bytes, the others being 0.
    fn add(&mut self, first: impl IntoIterator<Item = u8>) -> &mut FileBuilder<WIDTH> {
        let mut record = [0; WIDTH];
        record.iter_mut().zip(first).for_each(|(byte, value)| *byte = value);
        self.records.insert(record);
        self
    }

    /// The number of records of a kind: 1 for rules, 2 for moves, 3 for finishing stages.
    pub fn count(&self, kind: u8) -> usize {
        self.records.iter().filter(|record| record[0] == kind).count()
    }

    /// The bytes as they are, whether or not they are refused.
    pub fn bytes(&self) -> Vec<u8> {
        self.records.iter().flatten().copied().collect()
    }
}
