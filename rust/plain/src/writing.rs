//! The run behind a row.

use crate::file::{Body, Plan, Refusal, Symbol};
use crate::journal::{Row, CAP};

/// A part of a run still to be written.
enum Part {
    Step(u8),
    Row(u16),
}

/// Writes the run behind a row of a check's journal to the front of `buffer` and returns its length, or refuses with 10.
pub fn write_run(plan: &Plan, rows: &[Row], row: u16, buffer: &mut [u8]) -> Result<usize, Refusal> {
    let length = rows[usize::from(row)].length;
    if length == CAP || usize::from(length) > buffer.len() {
        return Err(Refusal::new(10));
    }
    let mut written = 0;
    // The parts that remain, the next one last.
    let mut parts = vec![Part::Row(row)];
    while let Some(part) = parts.pop() {
        match part {
            Part::Step(code) => {
                buffer[written] = code;
                written += 1;
            }
            Part::Row(number) => push_body(plan, &rows[usize::from(number)], &mut parts),
        }
    }
    Ok(written)
}

/// Puts the symbols of a row's body on the pile, the first on top. A row of length 0 writes nothing and is not entered.
fn push_body(plan: &Plan, row: &Row, parts: &mut Vec<Part>) {
    if row.length == 0 {
        return;
    }
    let part = |symbol, pointer| match symbol {
        Symbol::Code(code) => Part::Step(code),
        Symbol::Procedure(_) => Part::Row(pointer),
    };
    match plan.rules[usize::from(row.rule)].body {
        Body::Nothing => {}
        Body::One(symbol) => parts.push(part(symbol, row.left)),
        Body::Two(first, second) => {
            parts.push(part(second, row.right));
            parts.push(part(first, row.left));
        }
    }
}
