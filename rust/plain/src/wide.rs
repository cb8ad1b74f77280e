//! Sixteen-byte plan records (C-17): moving a file over and back, and unfolding the longer bodies for a check.

use crate::file::{read, Refusal, FIRST_REMARK, LAST_CODE, LAST_PROCEDURE, LAST_STAGE, LAST_SYMBOL};
use crate::file::{FINISHING, MOST_MOVES, MOST_RECORDS, MOST_RULES, MOVE, RECORD, RULE};
use crate::INITIAL;

const WIDE_RECORD: usize = 16;
const LONGEST_BODY: u8 = 12;
const PROCEDURES: usize = 64;

/// The longest body of an eight-byte rule.
const LONGEST_OLD_BODY: usize = 2;

/// Moves a file of eight-byte records over. Writes the result to the front of `out` and returns its length.
pub fn widen(file: &[u8], out: &mut [u8]) -> Result<usize, Refusal> {
    read(file)?;
    let halves: Vec<&[u8]> = file.chunks(RECORD).flat_map(|record| [record, &[0; RECORD]]).collect();
    put(&halves.concat(), out)
}

/// Moves a file of sixteen-byte records back. Writes the result to the front of `out` and returns its length.
pub fn narrow(file: &[u8], out: &mut [u8]) -> Result<usize, Refusal> {
    let records = read_wide(file)?;
    if records
        .iter()
        .any(|record| record[0] == RULE && body(record).len() > LONGEST_OLD_BODY)
    {
        return Err(Refusal::new(17));
    }
    put(&front_halves(&records), out)
}

/// Unfolds a file of sixteen-byte records for procedure 0 alone. Writes the result to the front of `out` and returns its length.
pub fn unfold(file: &[u8], out: &mut [u8]) -> Result<usize, Refusal> {
    unfold_from(file, INITIAL, out)
}

/// Unfolds a file of sixteen-byte records for a set of starting procedures, which count as in use (C-18). Writes the result to the front of
/// `out` and returns its length.
pub fn unfold_from(file: &[u8], starts: u64, out: &mut [u8]) -> Result<usize, Refusal> {
    let records = read_wide(file)?;
    let (rules, others): (Vec<&[u8]>, Vec<&[u8]>) = records.into_iter().partition(|record| record[0] == RULE);
    let members = (0..=LAST_PROCEDURE).filter(|procedure| starts >> procedure & 1 == 1);
    let highest = rules.iter().flat_map(|rule| in_use(rule)).chain(members).max();
    let free = highest.map_or(0, |highest| highest + 1);
    let longer = |rule: &&[u8]| body(rule).len().saturating_sub(LONGEST_OLD_BODY);
    let needed: usize = rules.iter().map(longer).sum();
    // Each chain procedure has one rule.
    if usize::from(free) + needed > PROCEDURES || rules.len() + needed > MOST_RULES {
        return Err(Refusal::new(18));
    }
    let mut chains = free..free + needed as u8;
    let mut unfolded = Vec::new();
    for rule in rules {
        unfold_body(rule[1], body(rule), &mut chains, &mut unfolded);
    }
    unfolded.sort();
    put(&[unfolded.concat(), front_halves(&others)].concat(), out)
}

/// Adds the rules that a procedure and a body become: a longer body is its first symbol and a chain procedure for the rest.
fn unfold_body(procedure: u8, body: &[u8], chains: &mut impl Iterator<Item = u8>, unfolded: &mut Vec<[u8; RECORD]>) {
    match body {
        [first, rest @ ..] if body.len() > LONGEST_OLD_BODY => {
            let chain = chains.next().expect("the chain procedures were counted");
            unfolded.push(old_rule(procedure, &[*first, LAST_CODE + 1 + chain]));
            unfold_body(chain, rest, chains, unfolded);
        }
        _ => unfolded.push(old_rule(procedure, body)),
    }
}

/// The eight-byte record of a rule.
fn old_rule(procedure: u8, body: &[u8]) -> [u8; RECORD] {
    let mut record = [RULE, procedure, body.len() as u8, 0, 0, 0, 0, 0];
    record[3..3 + body.len()].copy_from_slice(body);
    record
}

/// The symbols of a rule's record.
fn body(rule: &[u8]) -> &[u8] {
    &rule[3..3 + usize::from(rule[2])]
}

/// The procedures that a rule uses: its own, and those of its symbols.
fn in_use(rule: &[u8]) -> Vec<u8> {
    let symbols = body(rule).iter().filter(|&&symbol| symbol > LAST_CODE);
    symbols.map(|symbol| symbol - LAST_CODE - 1).chain([rule[1]]).collect()
}

/// The first eight bytes of each record.
fn front_halves(records: &[&[u8]]) -> Vec<u8> {
    records.iter().flat_map(|record| &record[..RECORD]).copied().collect()
}

/// Writes a result to the front of the lent output, or refuses with 10.
fn put(result: &[u8], out: &mut [u8]) -> Result<usize, Refusal> {
    let front = out.get_mut(..result.len()).ok_or(Refusal::new(10))?;
    front.copy_from_slice(result);
    Ok(result.len())
}

/// The records of a file of the new form, or what refuses it.
fn read_wide(file: &[u8]) -> Result<Vec<&[u8]>, Refusal> {
    let records = file.chunks_exact(WIDE_RECORD);
    if !records.remainder().is_empty() {
        return Err(Refusal::new(16));
    }
    let records: Vec<&[u8]> = records.collect();
    if records.len() > MOST_RECORDS {
        return Err(Refusal::new(2));
    }
    let (mut rules, mut moves) = (0, 0);
    let mut last: &[u8] = &[];
    for (number, &record) in records.iter().enumerate() {
        rules += usize::from(record[0] == RULE);
        moves += usize::from(record[0] == MOVE);
        let fault = fault_alone(record)
            .or((record <= last).then_some(6))
            .or((rules > MOST_RULES || moves > MOST_MOVES).then_some(7));
        if let Some(fault) = fault {
            return Err(Refusal {
                number: fault,
                record: number,
            });
        }
        last = record;
    }
    Ok(records)
}

/// The number of the earliest check that refuses a record whatever stands before it: 3, 4, 5 or 12.
fn fault_alone(record: &[u8]) -> Option<u8> {
    // Whether each used byte after the kind is in its range, and the first byte that is not used. A body length above 12 gives 4, whatever its
    // symbols are.
    let symbols = usize::from(record[2].min(LONGEST_BODY));
    let (in_range, unused) = match record[0] {
        RULE => {
            let known = record[3..3 + symbols].iter().all(|&symbol| symbol <= LAST_SYMBOL);
            (record[1] <= LAST_PROCEDURE && record[2] <= LONGEST_BODY && known, 3 + symbols)
        }
        MOVE => (
            record[1] <= LAST_STAGE && record[2] <= LAST_CODE && record[3] <= LAST_STAGE,
            4,
        ),
        FINISHING => (record[1] <= LAST_STAGE, 2),
        _ => return Some(3),
    };
    if !in_range {
        Some(4)
    } else if record[unused..].iter().any(|&byte| byte != 0) {
        Some(5)
    } else if record[0] == MOVE && record[2] >= FIRST_REMARK {
        Some(12)
    } else {
        None
    }
}
