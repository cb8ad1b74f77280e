//! Checks a plan file as the check program of document 01 does: 1,024 rows, a budget of 1,000,000, a run buffer of 4,096 bytes.
//!
//!     cargo run --example check -- ../samples/plan-b.plan
//!
//! Exit status: 0 holds, 1 broken, 2 no answer (the file cannot be read, or the answer not written), 3 refused, 4 full or spent,
//! 5 empty.

mod answer;

use answer::{status, text};
use bolfrega::{PROGRAM_BUDGET, PROGRAM_ROOM, PROGRAM_ROWS};
use std::io::Write;
use std::process::ExitCode;
use std::{env, fs, io};

fn main() -> ExitCode {
    let Some(path) = env::args_os().nth(1) else {
        eprintln!("usage: check FILE");
        return ExitCode::from(2);
    };
    let file = match fs::read(&path) {
        Ok(file) => file,
        Err(error) => {
            eprintln!("check: {}: {error}", path.to_string_lossy());
            return ExitCode::from(2);
        }
    };
    let mut buffer = [0; PROGRAM_ROOM];
    let reply = bolfrega::check(&file, PROGRAM_ROWS, PROGRAM_BUDGET, &mut buffer);
    if let Err(refusal) = &reply {
        eprintln!("check: {refusal}");
    }
    // One write for the whole answer; one that fails is no answer.
    let mut output = io::stdout().lock();
    if let Err(error) = output.write_all(text(&reply).as_bytes()).and_then(|()| output.flush()) {
        eprintln!("check: standard output: {error}");
        return ExitCode::from(2);
    }
    ExitCode::from(status(&reply))
}
