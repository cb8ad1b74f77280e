//! Says whether a drive was one of the plan's: whether procedure 0 derives the steps that a receiver saved, in the order they were taken.
//!
//!     cargo run --example drive -- ../samples/plan-b.plan 1 3
//!
//! Exit status: 0 derived, 1 not derived, 2 no answer (the file cannot be read, a step is no code, or the answer not written), 3 refused.

use bolfrega::Refusal;
use std::io::Write;
use std::process::ExitCode;
use std::{env, fs, io};

fn main() -> ExitCode {
    match drive() {
        Ok(status) => ExitCode::from(status),
        Err(message) => {
            eprintln!("drive: {message}");
            ExitCode::from(2)
        }
    }
}

/// Prints the answer; gives the exit status, or why there is no answer.
fn drive() -> Result<u8, String> {
    let mut words = env::args().skip(1);
    let path = words.next().ok_or("usage: drive FILE STEP..")?;
    let step = |word: String| word.parse::<u8>().map_err(|_| format!("{word} is no step code"));
    let run = words.map(step).collect::<Result<Vec<u8>, String>>()?;
    let file = fs::read(&path).map_err(|error| format!("{path}: {error}"))?;
    let (text, status) = match bolfrega::recognize(&file, &run) {
        Ok(found) => (format!("{found}\n"), u8::from(!found.derived())),
        Err(Refusal::Unknown { number }) => return Err(format!("the library gave {number}, an unknown number")),
        Err(refusal) => (format!("refused {}\n", refusal.number()), 3),
    };
    let mut output = io::stdout().lock();
    let written = output.write_all(text.as_bytes()).and_then(|()| output.flush());
    written.map(|()| status).map_err(|error| format!("standard output: {error}"))
}
