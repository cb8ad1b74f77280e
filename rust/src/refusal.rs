//! The numbers that a call refuses with.

use crate::raw;
use core::error::Error;
use core::fmt;

/// Why a call refused. Each case is one of the numbers of documents 01 and 02; 3 to 7 and 12 name the first record at fault,
/// counted from 0.
///
/// The numbers 19 and above belong to calls that this library doesn't have. A number that this crate does not know is [`Refusal::Unknown`],
/// and never an answer.
///
/// ```
/// use bolfrega::Refusal;
///
/// // Record 0 is a rule of procedure 64, and the last procedure is 63.
/// let refused = bolfrega::refusal(&[1, 64, 0, 0, 0, 0, 0, 0]).unwrap_err();
/// assert_eq!(refused, Refusal::AboveRange { record: 0 });
/// assert_eq!(refused.to_string(), "record 0: a used byte is above its range (4)");
/// assert_eq!((refused.number(), refused.record()), (4, Some(0)));
/// ```
#[derive(Clone, Copy, Debug, PartialEq, Eq, Hash)]
#[non_exhaustive]
#[allow(missing_docs)] // the fields are the same in each case, as said above
pub enum Refusal {
    /// 1: the length of a file of eight-byte records is no multiple of 8.
    Length,
    /// 2: the file has more than 1,296 records.
    Records,
    /// 3: a record's kind is not 1, 2 or 3.
    Kind { record: u64 },
    /// 4: a used byte is above its range.
    AboveRange { record: u64 },
    /// 5: an unused byte is not 0.
    Unused { record: u64 },
    /// 6: a record does not exceed the one before it.
    Order { record: u64 },
    /// 7: a record is the 257th rule or the 1,025th move.
    Count { record: u64 },
    /// 8: the journal has no row or more than 4,096 rows.
    Journal,
    /// 9: the row whose run is to be written is none of the used ones, or more rows are said to be used than there are, or a row up to it
    /// does not fit: it is none that a check of the file could have stored.
    Row,
    /// 10: the run to be written has 65,535 or more steps, or more than the buffer has bytes; or the output of a move or an unfolding is
    /// shorter than its result.
    Room,
    /// 11: a run given to be judged or recognized has more than 65,534 steps or a code above 127.
    Run,
    /// 12: a move is on a remark, a code of 120 or above.
    Remark { record: u64 },
    /// 13: a run given to be recognized has more than 64 steps.
    LongRun,
    /// 14: the table for a run to be recognized does not have 2,145 cells.
    Table,
    /// 15: the buffer for the list of gaps and doubles has fewer than 5,760 bytes.
    List,
    /// 16: the length of a file of sixteen-byte records is no multiple of 16.
    WideLength,
    /// 17: a file to be moved back has a body of more than two symbols.
    LongBody,
    /// 18: an unfolding needs procedure 64 or a 257th rule.
    Chains,
    /// A number that this crate does not know, as a library of a later version might give it: there is no answer.
    Unknown { number: u64 },
}

impl Refusal {
    /// The papers' number.
    pub fn number(self) -> u64 {
        match self {
            Refusal::Length => raw::REFUSAL_LENGTH,
            Refusal::Records => raw::REFUSAL_RECORDS,
            Refusal::Kind { .. } => raw::REFUSAL_KIND,
            Refusal::AboveRange { .. } => raw::REFUSAL_ABOVE_RANGE,
            Refusal::Unused { .. } => raw::REFUSAL_UNUSED,
            Refusal::Order { .. } => raw::REFUSAL_ORDER,
            Refusal::Count { .. } => raw::REFUSAL_COUNT,
            Refusal::Journal => raw::REFUSAL_JOURNAL,
            Refusal::Row => raw::REFUSAL_ROW,
            Refusal::Room => raw::REFUSAL_ROOM,
            Refusal::Run => raw::REFUSAL_RUN,
            Refusal::Remark { .. } => raw::REFUSAL_REMARK,
            Refusal::LongRun => raw::REFUSAL_LONG_RUN,
            Refusal::Table => raw::REFUSAL_TABLE,
            Refusal::List => raw::REFUSAL_LIST,
            Refusal::WideLength => raw::REFUSAL_WIDE_LENGTH,
            Refusal::LongBody => raw::REFUSAL_LONG_BODY,
            Refusal::Chains => raw::REFUSAL_CHAINS,
            Refusal::Unknown { number } => number,
        }
    }

    /// The record at fault, for 3 to 7 and 12.
    pub fn record(self) -> Option<u64> {
        match self {
            Refusal::Kind { record }
            | Refusal::AboveRange { record }
            | Refusal::Unused { record }
            | Refusal::Order { record }
            | Refusal::Count { record }
            | Refusal::Remark { record } => Some(record),
            Refusal::Length
            | Refusal::Records
            | Refusal::Journal
            | Refusal::Row
            | Refusal::Room
            | Refusal::Run
            | Refusal::LongRun
            | Refusal::Table
            | Refusal::List
            | Refusal::WideLength
            | Refusal::LongBody
            | Refusal::Chains
            | Refusal::Unknown { .. } => None,
        }
    }

    /// The refusal with a number that the library gave, which is no answer of the call.
    pub(crate) fn from_number(number: u64, record: u64) -> Refusal {
        match number {
            raw::REFUSAL_LENGTH => Refusal::Length,
            raw::REFUSAL_RECORDS => Refusal::Records,
            raw::REFUSAL_KIND => Refusal::Kind { record },
            raw::REFUSAL_ABOVE_RANGE => Refusal::AboveRange { record },
            raw::REFUSAL_UNUSED => Refusal::Unused { record },
            raw::REFUSAL_ORDER => Refusal::Order { record },
            raw::REFUSAL_COUNT => Refusal::Count { record },
            raw::REFUSAL_JOURNAL => Refusal::Journal,
            raw::REFUSAL_ROW => Refusal::Row,
            raw::REFUSAL_ROOM => Refusal::Room,
            raw::REFUSAL_RUN => Refusal::Run,
            raw::REFUSAL_REMARK => Refusal::Remark { record },
            raw::REFUSAL_LONG_RUN => Refusal::LongRun,
            raw::REFUSAL_TABLE => Refusal::Table,
            raw::REFUSAL_LIST => Refusal::List,
            raw::REFUSAL_WIDE_LENGTH => Refusal::WideLength,
            raw::REFUSAL_LONG_BODY => Refusal::LongBody,
            raw::REFUSAL_CHAINS => Refusal::Chains,
            _ => Refusal::Unknown { number },
        }
    }

    /// What is wrong, in the words of the C header.
    pub fn message(self) -> &'static str {
        match self {
            Refusal::Length => "the file's length is no multiple of 8",
            Refusal::Records => "the file has more than 1,296 records",
            Refusal::Kind { .. } => "the kind is not 1, 2 or 3",
            Refusal::AboveRange { .. } => "a used byte is above its range",
            Refusal::Unused { .. } => "an unused byte is not 0",
            Refusal::Order { .. } => "it does not exceed the record before it",
            Refusal::Count { .. } => "it is the 257th rule or the 1,025th move",
            Refusal::Journal => "the journal has no row or more than 4,096 rows",
            Refusal::Row => {
                "the row is not used, or more rows are used than there are, or a row up to it is none of a check of this file"
            }
            Refusal::Room => {
                "the run has 65,535 or more steps or more than the buffer has bytes, or the output is shorter than the result"
            }
            Refusal::Run => "the run has more than 65,534 steps or a code above 127",
            Refusal::Remark { .. } => "it is a move on a remark, a code of 120 or above",
            Refusal::LongRun => "the run has more than 64 steps",
            Refusal::Table => "the table does not have 2,145 cells",
            Refusal::List => "the buffer for the list has fewer than 5,760 bytes",
            Refusal::WideLength => "the file's length is no multiple of 16",
            Refusal::LongBody => "a body has more than two symbols",
            Refusal::Chains => "the unfolding needs procedure 64 or a 257th rule",
            Refusal::Unknown { .. } => "an unknown number: no answer",
        }
    }
}

impl fmt::Display for Refusal {
    fn fmt(&self, f: &mut fmt::Formatter<'_>) -> fmt::Result {
        if let Some(record) = self.record() {
            write!(f, "record {record}: ")?;
        }
        write!(f, "{} ({})", self.message(), self.number())
    }
}

impl Error for Refusal {}
