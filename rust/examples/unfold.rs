//! Unfolds a plan file of sixteen-byte records, and checks the result as the check program of document 01 does: 1,024 rows, a budget of
//! 1,000,000, a run buffer of 4,096 bytes. If a second name is given, the unfolded file is written there, for `check-plan` and others.
//!
//!     cargo run --example unfold -- ../samples/long-bodies.wide
//!
//! Exit status: 0 holds, 1 broken, 2 no answer (the file cannot be read, or the answer or the unfolded file not written), 3 refused,
//! 4 full or spent, 5 empty.

mod answer;

use answer::{status, text};
use bolfrega::{PROGRAM_BUDGET, PROGRAM_ROOM, PROGRAM_ROWS};
use std::io::Write;
use std::process::ExitCode;
use std::{env, fs, io};

fn main() -> ExitCode {
    match unfold() {
        Ok(status) => ExitCode::from(status),
        Err(message) => {
            eprintln!("unfold: {message}");
            ExitCode::from(2)
        }
    }
}

/// Prints the answer; gives the exit status, or why there is no answer.
fn unfold() -> Result<u8, String> {
    let mut words = env::args().skip(1);
    let path = words.next().ok_or("usage: unfold FILE [UNFOLDED]")?;
    let wide = fs::read(&path).map_err(|error| format!("{path}: {error}"))?;
    let unfolded = bolfrega::unfold(&wide);
    if let (Ok(file), Some(path)) = (&unfolded, words.next()) {
        fs::write(&path, file).map_err(|error| format!("{path}: {error}"))?;
    }
    let mut buffer = [0; PROGRAM_ROOM];
    let reply = unfolded.and_then(|file| bolfrega::check(&file, PROGRAM_ROWS, PROGRAM_BUDGET, &mut buffer));
    if let Err(refusal) = &reply {
        eprintln!("unfold: {refusal}");
    }
    let mut output = io::stdout().lock();
    let written = output.write_all(text(&reply).as_bytes()).and_then(|()| output.flush());
    written
        .map(|()| status(&reply))
        .map_err(|error| format!("standard output: {error}"))
}
