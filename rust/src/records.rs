//! The records of a file, one after the other.

use crate::answers::words;
use crate::{raw, refusal, Refusal, CODES, RECORD_BYTES, WIDE_RECORD_BYTES};
use core::fmt;
use core::iter::FusedIterator;
use core::slice::ChunksExact;

/// A symbol of a rule's body.
///
/// ```
/// use bolfrega::Symbol;
///
/// assert_eq!(Symbol::from(3), Symbol::Code(3));
/// assert_eq!(Symbol::from(129), Symbol::Procedure(1));
/// assert_eq!(u8::from(Symbol::Procedure(1)), 129);
/// assert_eq!(Symbol::Procedure(1).to_string(), "(procedure 1)");
/// ```
#[derive(Clone, Copy, Debug, PartialEq, Eq, Hash)]
pub enum Symbol {
    /// A step code.
    Code(u8),
    /// A procedure.
    Procedure(u8),
}

impl From<u8> for Symbol {
    fn from(byte: u8) -> Symbol {
        match byte.checked_sub(CODES) {
            None => Symbol::Code(byte),
            Some(procedure) => Symbol::Procedure(procedure),
        }
    }
}

/// The byte of a code or a procedure that there is; of any other the byte is 255, which is no symbol.
impl From<Symbol> for u8 {
    fn from(symbol: Symbol) -> u8 {
        match symbol {
            Symbol::Code(code) if code < CODES => code,
            Symbol::Code(_) => u8::MAX,
            Symbol::Procedure(number) => procedure(number),
        }
    }
}

impl fmt::Display for Symbol {
    fn fmt(&self, f: &mut fmt::Formatter<'_>) -> fmt::Result {
        match self {
            Symbol::Code(code) => write!(f, "{code}"),
            Symbol::Procedure(number) => write!(f, "(procedure {number})"),
        }
    }
}

/// The symbol of a procedure, as a byte. Of a number above 63 the byte is above 191, which is no symbol, and a file with it is refused.
pub const fn procedure(number: u8) -> u8 {
    CODES.saturating_add(number)
}

/// A record of a file that nothing refuses.
#[derive(Clone, Copy, Debug, PartialEq, Eq, Hash)]
#[non_exhaustive]
pub enum Record<'f> {
    /// A rule of the plan.
    Rule {
        /// The procedure whose rule it is.
        procedure: u8,
        /// The symbols that it gives, as bytes; [`Symbol`] tells codes and procedures apart.
        body: &'f [u8],
    },
    /// A move of the order sheet.
    Move {
        /// From this stage ..
        from: u8,
        /// .. on this step code ..
        code: u8,
        /// .. to this stage.
        to: u8,
    },
    /// A finishing stage of the order sheet.
    Finishing {
        /// The stage.
        stage: u8,
    },
}

impl fmt::Display for Record<'_> {
    fn fmt(&self, f: &mut fmt::Formatter<'_>) -> fmt::Result {
        match self {
            Record::Rule { procedure, body: [] } => write!(f, "{procedure} gives nothing"),
            Record::Rule { procedure, body } => {
                write!(f, "{procedure} gives ")?;
                words(f, body.iter().map(|&byte| Symbol::from(byte)))
            }
            Record::Move { from, code, to } => write!(f, "from stage {from} on code {code} to stage {to}"),
            Record::Finishing { stage } => write!(f, "stage {stage} is finishing"),
        }
    }
}

/// The records of a file in file order; [`records`] and [`wide_records`] make one.
#[derive(Clone, Debug)]
pub struct Records<'f> {
    left: ChunksExact<'f, u8>,
}

/// The record in the bytes of one that nothing refuses.
fn record(bytes: &[u8]) -> Record<'_> {
    match bytes[0] {
        raw::RULE => Record::Rule {
            procedure: bytes[1],
            body: &bytes[3..3 + usize::from(bytes[2])],
        },
        raw::MOVE => Record::Move {
            from: bytes[1],
            code: bytes[2],
            to: bytes[3],
        },
        _ => Record::Finishing { stage: bytes[1] },
    }
}

impl<'f> Iterator for Records<'f> {
    type Item = Record<'f>;

    fn next(&mut self) -> Option<Record<'f>> {
        self.left.next().map(record)
    }

    fn size_hint(&self) -> (usize, Option<usize>) {
        self.left.size_hint()
    }
}

impl DoubleEndedIterator for Records<'_> {
    fn next_back(&mut self) -> Option<Self::Item> {
        self.left.next_back().map(record)
    }
}

impl ExactSizeIterator for Records<'_> {}

impl FusedIterator for Records<'_> {}

/// The records of a file of eight-byte records. It refuses a file with 1 to 7 or 12.
///
/// ```
/// use bolfrega::{records, Record, Refusal};
///
/// let file = [
///     [1, 0, 2, 129, 3, 0, 0, 0],
///     [2, 0, 1, 1, 0, 0, 0, 0],
///     [3, 2, 0, 0, 0, 0, 0, 0],
/// ]
/// .concat();
/// let lines: Vec<String> = records(&file)?.map(|record| record.to_string()).collect();
/// assert_eq!(lines, ["0 gives (procedure 1) 3", "from stage 0 on code 1 to stage 1", "stage 2 is finishing"]);
/// assert_eq!(records(&file)?.next(), Some(Record::Rule { procedure: 0, body: &[129, 3] }));
/// assert_eq!(records(&file[..9]).unwrap_err(), Refusal::Length);
/// # Ok::<(), Refusal>(())
/// ```
pub fn records(file: &[u8]) -> Result<Records<'_>, Refusal> {
    refusal(file)?;
    let left = file.chunks_exact(RECORD_BYTES);
    Ok(Records { left })
}

/// The records of a file of [sixteen-byte records](crate#sixteen-byte-records). It refuses a file with 16, 2 to 7 or 12.
///
/// ```
/// use bolfrega::{wide_records, Refusal};
///
/// let file = [1, 0, 3, 5, 129, 7, 0, 0, 0, 0, 0, 0, 0, 0, 0, 0];
/// assert_eq!(wide_records(&file)?.next().unwrap().to_string(), "0 gives 5 (procedure 1) 7");
/// assert_eq!(wide_records(&file[..8]).unwrap_err(), Refusal::WideLength);
/// # Ok::<(), Refusal>(())
/// ```
pub fn wide_records(file: &[u8]) -> Result<Records<'_>, Refusal> {
    wide_refusal(file)?;
    let left = file.chunks_exact(WIDE_RECORD_BYTES);
    Ok(Records { left })
}

/// Reads a file of [sixteen-byte records](crate#sixteen-byte-records), and says why it is refused if it is: 16, 2 to 7 or 12.
///
/// ```
/// use bolfrega::{wide_refusal, Refusal};
///
/// assert_eq!(wide_refusal(&[3, 0, 0, 0, 0, 0, 0, 0, 0, 0, 0, 0, 0, 0, 0, 0]), Ok(()));
/// assert_eq!(wide_refusal(&[3, 0, 0, 0, 0, 0, 0, 0, 0, 0, 0, 0, 0, 0, 0, 1]), Err(Refusal::Unused { record: 0 }));
/// ```
pub fn wide_refusal(file: &[u8]) -> Result<(), Refusal> {
    let (mut record, mut length) = (0, 0);
    // What refuses the file itself comes before a long body and a missing output.
    match raw::narrow(file, &mut record, &mut length, &mut []) {
        raw::CONVERTED | raw::REFUSAL_LONG_BODY | raw::REFUSAL_ROOM => Ok(()),
        number => Err(Refusal::from_number(number, record)),
    }
}

/// Reads the record at a place of a file, from 0; `None` past the last one. To read a file as far as it goes, begin at 0 and add one for each record.
///
/// It refuses a file with 1 or 2 by its length, and then the record with 3 to 7 or 12. Numbers 6 and 7 look at the records before it, which are not
/// checked again.
///
/// ```
/// use bolfrega::{step, Record, Refusal};
///
/// let file = [3, 2, 0, 0, 0, 0, 0, 0, 3, 1, 0, 0, 0, 0, 0, 0]; // the second record does not exceed the first
/// assert_eq!(step(&file, 0), Ok(Some(Record::Finishing { stage: 2 })));
/// assert_eq!(step(&file, 1), Err(Refusal::Order { record: 1 }));
/// assert_eq!(step(&file, 2), Ok(None));
/// ```
pub fn step(file: &[u8], from: usize) -> Result<Option<Record<'_>>, Refusal> {
    let (mut record, mut values, mut next) = (0, raw::Values::default(), 0);
    let number = raw::step(file, from, &mut record, &mut values, &mut next);
    let [first, second, third, _] = values.map(|value| value as u8);
    match number {
        raw::STEP_RULE => Ok(Some(Record::Rule {
            procedure: first,
            body: &file[RECORD_BYTES * from + 3..][..usize::from(second)],
        })),
        raw::STEP_MOVE => Ok(Some(Record::Move {
            from: first,
            code: second,
            to: third,
        })),
        raw::STEP_FINISHING => Ok(Some(Record::Finishing { stage: first })),
        raw::STEP_ENDED => Ok(None),
        number => Err(Refusal::from_number(number, record)),
    }
}

/// The bytes of a file that are its moves, which stand beside each other; none if the file is refused.
///
/// ```
/// let file = [
///     [1, 0, 0, 0, 0, 0, 0, 0],
///     [2, 0, 1, 1, 0, 0, 0, 0],
///     [3, 1, 0, 0, 0, 0, 0, 0],
/// ]
/// .concat();
/// assert_eq!(bolfrega::moves(&file), &file[8..16]);
/// assert_eq!(bolfrega::moves(&file[1..]), []);
/// ```
pub fn moves(file: &[u8]) -> &[u8] {
    let (mut offset, mut length) = (0, 0);
    raw::moves(file, &mut offset, &mut length);
    &file[offset as usize..][..length as usize]
}
