//! Lists what was forgotten in an order sheet, and what stands there more than once: a line for each stage and code whose number of moves is
//! not one, with that number.
//!
//!     cargo run --example gaps -- ../samples/edited.plan
//!
//! Exit status: 0 no entry, 1 some entries, 2 no answer (the file cannot be read, or the answer not written), 3 refused.

use bolfrega::Refusal;
use std::io::Write;
use std::process::ExitCode;
use std::{env, fs, io};

fn main() -> ExitCode {
    match list() {
        Ok(status) => ExitCode::from(status),
        Err(message) => {
            eprintln!("gaps: {message}");
            ExitCode::from(2)
        }
    }
}

/// Prints the answer; gives the exit status, or why there is no answer.
fn list() -> Result<u8, String> {
    let path = env::args().nth(1).ok_or("usage: gaps FILE")?;
    let file = fs::read(&path).map_err(|error| format!("{path}: {error}"))?;
    let (text, status) = match bolfrega::gaps(&file) {
        Ok(gaps) => {
            let status = u8::from(gaps.len() > 0);
            let lines = gaps.map(|gap| format!("{gap}\n"));
            (lines.collect::<String>(), status)
        }
        Err(Refusal::Unknown { number }) => return Err(format!("the library gave {number}, an unknown number")),
        Err(refusal) => (format!("refused {}\n", refusal.number()), 3),
    };
    let mut output = io::stdout().lock();
    let written = output.write_all(text.as_bytes()).and_then(|()| output.flush());
    written.map(|()| status).map_err(|error| format!("standard output: {error}"))
}
