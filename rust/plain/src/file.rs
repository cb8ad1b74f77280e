//! Files of 8-byte records, and the numbers that refuse them.

use crate::effect::Effect;

pub(crate) const RECORD: usize = 8;
pub(crate) const MOST_RECORDS: usize = 1_296;
pub(crate) const MOST_RULES: usize = 256;
pub(crate) const MOST_MOVES: usize = 1_024;

pub(crate) const RULE: u8 = 1;
pub(crate) const MOVE: u8 = 2;
pub(crate) const FINISHING: u8 = 3;

pub(crate) const LAST_PROCEDURE: u8 = 63;
pub(crate) const LAST_CODE: u8 = 127;
pub(crate) const LAST_SYMBOL: u8 = 191;
pub(crate) const LAST_STAGE: u8 = 15;

/// The codes from this one on are remarks (C-11): the effect of each is that of the empty run, and no move may be on one.
pub const FIRST_REMARK: u8 = 120;

/// Why a call refuses: the paper's number, and for 3 to 7 and 12 the record's number, else 0.
#[derive(Clone, Copy, Debug, PartialEq, Eq)]
pub struct Refusal {
    pub number: u8,
    pub record: usize,
}

impl Refusal {
    /// A refusal that names no record.
    pub fn new(number: u8) -> Refusal {
        Refusal { number, record: 0 }
    }
}

/// A symbol of a rule's body.
#[derive(Clone, Copy, Debug, PartialEq, Eq)]
pub enum Symbol {
    Code(u8),
    Procedure(u8),
}

/// A rule's body.
#[derive(Clone, Copy, Debug, PartialEq, Eq)]
pub enum Body {
    Nothing,
    One(Symbol),
    Two(Symbol, Symbol),
}

/// A rule: the procedure and what it gives.
#[derive(Clone, Copy, Debug, PartialEq, Eq)]
pub struct Rule {
    pub procedure: u8,
    pub body: Body,
}

/// What a file says: the plan's rules in file order, and the order sheet.
#[derive(Clone, Debug)]
pub struct Plan {
    pub rules: Vec<Rule>,
    /// The effect of each step code.
    pub codes: [Effect; 128],
    /// The finishing stages, a bit for each.
    pub finishing: u16,
}

/// Reads a file, or says what refuses it.
pub fn read(file: &[u8]) -> Result<Plan, Refusal> {
    let records = file.chunks_exact(RECORD);
    if !records.remainder().is_empty() {
        return Err(Refusal::new(1));
    }
    if records.len() > MOST_RECORDS {
        return Err(Refusal::new(2));
    }
    let mut reading = Reading::new();
    for (number, bytes) in records.enumerate() {
        let record: [u8; RECORD] = bytes.try_into().expect("a chunk has eight bytes");
        if let Some(fault) = reading.fault(&record) {
            return Err(Refusal {
                number: fault,
                record: number,
            });
        }
        reading.take(record);
    }
    Ok(reading.plan)
}

/// A file read so far.
struct Reading {
    plan: Plan,
    moves: usize,
    last: Option<[u8; RECORD]>,
}

impl Reading {
    fn new() -> Reading {
        let mut codes = [Effect::EMPTY; 128];
        codes[usize::from(FIRST_REMARK)..].fill(Effect::IDENTITY);
        let plan = Plan {
            rules: Vec::new(),
            codes,
            finishing: 0,
        };
        Reading {
            plan,
            moves: 0,
            last: None,
        }
    }

    /// The number of the earliest check that refuses the next record.
    fn fault(&self, record: &[u8; RECORD]) -> Option<u8> {
        let Some(tops) = tops(record) else {
            return Some(3);
        };
        let used = 1 + tops.len();
        if record[1..used].iter().zip(tops).any(|(byte, top)| byte > top) {
            return Some(4);
        }
        if record[used..].iter().any(|&byte| byte != 0) {
            return Some(5);
        }
        if record[0] == MOVE && record[2] >= FIRST_REMARK {
            return Some(12);
        }
        if self.last.is_some_and(|last| *record <= last) {
            return Some(6);
        }
        let over = match record[0] {
            RULE => self.plan.rules.len() == MOST_RULES,
            MOVE => self.moves == MOST_MOVES,
            _ => false,
        };
        over.then_some(7)
    }

    /// Takes a record without a fault in.
    fn take(&mut self, record: [u8; RECORD]) {
        match record[0] {
            RULE => self.plan.rules.push(rule(&record)),
            MOVE => {
                let code = &mut self.plan.codes[usize::from(record[2])];
                *code = code.with(record[1], record[3]);
                self.moves += 1;
            }
            _ => self.plan.finishing |= 1 << record[1],
        }
        self.last = Some(record);
    }
}

/// The greatest value of each byte that the record uses after its kind; `None` if there is no such kind.
///
/// A body length above 2 is itself above its range, so it does not matter how many symbols it would use.
fn tops(record: &[u8; RECORD]) -> Option<&'static [u8]> {
    const RULE_TOPS: [u8; 4] = [LAST_PROCEDURE, 2, LAST_SYMBOL, LAST_SYMBOL];
    match record[0] {
        RULE => Some(&RULE_TOPS[..2 + usize::from(record[2].min(2))]),
        MOVE => Some(&[LAST_STAGE, LAST_CODE, LAST_STAGE]),
        FINISHING => Some(&[LAST_STAGE]),
        _ => None,
    }
}

/// The rule of a record without a fault.
fn rule(record: &[u8; RECORD]) -> Rule {
    let body = match record[2] {
        0 => Body::Nothing,
        1 => Body::One(symbol(record[3])),
        _ => Body::Two(symbol(record[3]), symbol(record[4])),
    };
    Rule {
        procedure: record[1],
        body,
    }
}

fn symbol(byte: u8) -> Symbol {
    if byte <= LAST_CODE {
        Symbol::Code(byte)
    } else {
        Symbol::Procedure(byte - LAST_CODE - 1)
    }
}
