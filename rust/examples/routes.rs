//! Checks one plan file for several first procedures, with what the check program of document 01 has: 1,024 rows, a budget of 1,000,000, a run
//! buffer of 4,096 bytes. It prints the answer as that program does, and after a broken one the procedure whose run is turned away.
//!
//!     cargo run --example routes -- ../samples/routes.plan 0 3
//!
//! Exit status: 0 holds, 1 broken, 2 no answer (no procedure is given or one is not 0 to 63, the file cannot be read, or the answer not
//! written), 3 refused, 4 full or spent, 5 empty.

mod answer;

use answer::{status, text};
use bolfrega::{Starts, PROGRAM_BUDGET, PROGRAM_ROOM, PROGRAM_ROWS};
use std::io::Write;
use std::process::ExitCode;
use std::{env, fs, io};

fn main() -> ExitCode {
    match routes() {
        Ok(status) => ExitCode::from(status),
        Err(message) => {
            eprintln!("routes: {message}");
            ExitCode::from(2)
        }
    }
}

/// Prints the answer; gives the exit status, or why there is no answer.
fn routes() -> Result<u8, String> {
    let words: Vec<String> = env::args().skip(1).collect();
    // Without a procedure every plan would pass.
    let (path, procedures) = match &words[..] {
        [path, procedures @ ..] if !procedures.is_empty() => (path, procedures),
        _ => return Err("usage: routes FILE PROCEDURE..".to_string()),
    };
    let member = |starts: Starts, word: &String| {
        let with = word.parse().ok().and_then(|procedure| starts.with(procedure));
        with.ok_or_else(|| format!("{word} is no procedure"))
    };
    let starts = procedures.iter().try_fold(Starts::NONE, member)?;
    let file = fs::read(path).map_err(|error| format!("{path}: {error}"))?;
    let mut buffer = [0; PROGRAM_ROOM];
    let told = bolfrega::check_from(&file, starts, PROGRAM_ROWS, PROGRAM_BUDGET, &mut buffer);
    if let Err(refusal) = &told {
        eprintln!("routes: {refusal}");
    }
    let reply = told.map(|told| told.answer);
    let mut lines = text(&reply);
    if let Some(procedure) = told.ok().and_then(|told| told.procedure) {
        lines += &format!("procedure {procedure}\n");
    }
    let mut output = io::stdout().lock();
    let written = output.write_all(lines.as_bytes()).and_then(|()| output.flush());
    written
        .map(|()| status(&reply))
        .map_err(|error| format!("standard output: {error}"))
}
