//! Writes a case for each file that is named, and then the first COUNT cases at random, with the answers of the plain implementation, a line for
//! each call; `making::calls` says how it is written. Ends with status 2 where there is no count, a file cannot be read, or standard output
//! cannot be written.

use making::calls::{case_of, cases, Case};
use std::io::{self, BufWriter, Write};
use std::process::ExitCode;
use std::{env, fs};

fn main() -> ExitCode {
    match write_all(BufWriter::new(io::stdout().lock())) {
        Ok(()) => ExitCode::SUCCESS,
        Err(message) => {
            eprintln!("calls: {message}");
            ExitCode::from(2)
        }
    }
}

/// Writes what the words ask for, or says why not.
fn write_all(mut output: impl Write) -> Result<(), String> {
    let mut words = env::args().skip(1);
    let count = words
        .next()
        .and_then(|word| word.parse().ok())
        .ok_or("usage: calls COUNT FILE..")?;
    let named: Result<Vec<Case>, String> = words
        .map(|path| fs::read(&path).map(case_of).map_err(|error| format!("{path}: {error}")))
        .collect();
    let written = named?
        .into_iter()
        .chain(cases(count))
        .try_for_each(|case| write(&mut output, &case))
        .and_then(|()| output.flush());
    written.map_err(|error| format!("standard output: {error}"))
}

fn write(output: &mut impl Write, case: &Case) -> io::Result<()> {
    writeln!(output, "file {}", hex(&case.file))?;
    writeln!(output, "run {}", hex(&case.run))?;
    for call in &case.calls {
        writeln!(output, "{call} = {}", call.plainly(&case.file, &case.run))?;
    }
    Ok(())
}

fn hex(bytes: &[u8]) -> String {
    bytes.iter().map(|byte| format!("{byte:02x}")).collect()
}
