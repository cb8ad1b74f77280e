//! Which procedures of an empty plan never finish, and why. After the last pass of a check each procedure with a run has a row, so those without a
//! row have none.

use crate::names::Names;
use crate::words::joined;
use bolfrega::{Record, Row, Starts, Symbol};
use std::collections::BTreeSet;

/// The procedures that never finish and that the members need, each with its rules and what they wait for, as lines.
pub fn endless(rows: &[Row], rules: &[Record], starts: Starts, names: &Names) -> String {
    let finishing: BTreeSet<u8> = rows.iter().map(|row| row.procedure as u8).collect();
    let never = |procedure: &u8| !finishing.contains(procedure);
    let mut open: Vec<u8> = starts.procedures().filter(never).collect();
    let mut told = BTreeSet::new();
    while let Some(procedure) = open.pop() {
        if told.insert(procedure) {
            let own = rules_of(rules, procedure);
            open.extend(own.flat_map(|(_, body)| waits(body, &finishing)));
        }
    }
    told.iter()
        .map(|&procedure| why(procedure, rules, &finishing, names))
        .collect()
}

/// The lines for one procedure.
fn why(procedure: u8, rules: &[Record], finishing: &BTreeSet<u8>, names: &Names) -> String {
    let name = names.procedure(procedure);
    let mut lines: String = rules_of(rules, procedure)
        .map(|(number, body)| {
            let waits = waits(body, finishing).into_iter().map(|inner| names.procedure(inner));
            let rule = names.rule(&rules[number]);
            format!("    record {number}: {rule}   (waits for {})\n", joined(waits, " and "))
        })
        .collect();
    if lines.is_empty() {
        lines = "    it has no rule\n".to_string();
    }
    format!("  {name} never finishes:\n{lines}")
}

/// The rules of a procedure: the number and the body of each.
fn rules_of<'r>(rules: &'r [Record<'r>], of: u8) -> impl Iterator<Item = (usize, &'r [u8])> {
    rules.iter().enumerate().filter_map(move |(number, record)| match *record {
        Record::Rule { procedure, body } if procedure == of => Some((number, body)),
        _ => None,
    })
}

/// The procedures of a body that never finish, each once.
fn waits(body: &[u8], finishing: &BTreeSet<u8>) -> BTreeSet<u8> {
    let procedures = body.iter().filter_map(|&byte| match Symbol::from(byte) {
        Symbol::Procedure(procedure) => Some(procedure),
        Symbol::Code(_) => None,
    });
    procedures.filter(|procedure| !finishing.contains(procedure)).collect()
}
