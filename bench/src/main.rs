//! The proved check beside two of plain Rust, on the same files in one run: one forms every candidate, and one is semi-naive.
//!
//! `bench` measures and prints; `bench NAME..` only the files named, `bench --program` only
//! the check program's worst file, `bench --runs` only the recognizing of recorded runs, `bench --lists` only the listing of gaps and
//! doubles, `bench --forms` only the moving and unfolding of sixteen-byte records. `bench --svg FILE` prints the first table and draws it, `bench
//! --svg FILE NAME..` that of the files named. `bench --agree` only checks that all agree on every file, and `bench --files DIR` writes the files.

// The drawing of the command, of which a chart needs a part.
#[allow(dead_code)]
#[path = "../../rust/src/bin/bolfrega/picture/canvas.rs"]
mod canvas;
mod chart;
mod files;
mod forms;
mod growth;
mod lists;
mod runs;
mod timing;

use chart::Measured;
use files::Case;
use std::io::Write;
use std::path::Path;
use std::process::ExitCode;
use std::time::Duration;
use std::{env, fs, io};
use timing::{agree, measure, measure_alone, measure_lent, Outcome, Times};

/// Files with fewer joins say more about reading a file than about the search, and stay out of the summary.
const MANY_JOINS: u64 = 10_000;

/// The file that is hardly more than a call.
const TINY: &str = "plan-a";

fn main() -> ExitCode {
    let words: Vec<String> = env::args().skip(1).collect();
    let done = match words.iter().map(String::as_str).collect::<Vec<_>>()[..] {
        [] => whole_run(),
        ["--program"] => worst_of_program(),
        ["--runs"] => runs::agree().and_then(|_| runs::table()),
        ["--lists"] => lists::agree().and_then(|_| lists::table()),
        ["--forms"] => forms::agree().and_then(|_| forms::table()),
        ["--svg", path, ref names @ ..] => draw(path, names),
        ["--agree"] => all_agree(),
        ["--files", folder] => write_files(Path::new(folder)).map_err(|error| format!("{folder}: {error}")),
        ref names => named(names).and_then(|cases| table(&cases)).map(drop),
    };
    match done {
        Ok(()) => ExitCode::SUCCESS,
        Err(message) => {
            eprintln!("bench: {message}");
            ExitCode::FAILURE
        }
    }
}

/// Every table.
fn whole_run() -> Result<(), String> {
    table(&files::all())?;
    worst_of_program()?;
    growth::table()?;
    runs::table()?;
    lists::table()?;
    forms::table()
}

/// The files with these names.
fn named(names: &[&str]) -> Result<Vec<Case>, String> {
    let find = |name: &&str| files::all().into_iter().find(|case| case.name == *name);
    let unknown = |name: &&str| {
        let usage = "bench [NAME.. | --program | --runs | --lists | --forms | --svg FILE [NAME..] | --agree | --files DIR]";
        format!("there is no file {name}; usage: {usage}")
    };
    names.iter().map(|name| find(name).ok_or_else(|| unknown(name))).collect()
}

/// Checks every file with each check, and measures nothing. The plain ones must agree in each row of the journal, too.
fn all_agree() -> Result<(), String> {
    let cases = files::all();
    for case in &cases {
        agree(case)?;
        same_journals(case)?;
    }
    println!(
        "bench: the proved check, by both calls, and the plain ones agree on {} files",
        cases.len()
    );
    println!("bench: both agree on the runs of {} files", runs::agree()?);
    println!("bench: both agree on the lists of {} files", lists::agree()?);
    println!("bench: both agree on moving and unfolding {} files", forms::agree()?);
    Ok(())
}

/// Compares the journals of the two plain searches.
fn same_journals(case: &Case) -> Result<(), String> {
    let plan = plain::read(&case.file).map_err(|refusal| format!("{}: {refusal:?}", case.name))?;
    let searched =
        |search: fn(&plain::Plan, u64, usize, u64) -> plain::Search| search(&plan, plain::INITIAL, case.rows, case.budget);
    if !case.by_every || searched(plain::search) == searched(plain::search_semi_naive) {
        return Ok(());
    }
    Err(format!("{}: the plain checks have different journals", case.name))
}

/// Writes the files of the table, so that other programs can read them.
fn write_files(folder: &Path) -> io::Result<()> {
    fs::create_dir_all(folder)?;
    for case in files::all() {
        fs::write(folder.join(case.name + ".plan"), case.file)?;
    }
    Ok(())
}

/// Prints the table of some files, or of all, and draws it.
fn draw(path: &str, names: &[&str]) -> Result<(), String> {
    let cases = if names.is_empty() { files::all() } else { named(names)? };
    let failed = |error| format!("{path}: {error}");
    // A file that can't be written is better known before all is measured.
    let mut file = fs::File::create(path).map_err(failed)?;
    let drawn = chart::draw(&table(&cases)?);
    file.write_all(drawn.as_bytes()).map_err(failed)
}

/// A line for each file, and the summary. Returns what was measured.
fn table(cases: &[Case]) -> Result<Vec<Measured>, String> {
    println!("Times are for one join. \"proved\" is the proved check over lent rows, \"every\" plain Rust that forms every candidate, \"semi-naive\" plain Rust that is semi-naive.");
    println!();
    println!(
        "| {:<14} | {:<7} | {:>11} | {:>5} | {:>11} | {:>11} | {:>11} | {:>12} | {:>17} |",
        "file", "verdict", "joins", "rows", "proved", "every", "semi-naive", "proved/every", "proved/semi-naive"
    );
    println!(
        "|{:-<16}|{:-<9}|{:->12}:|{:->6}:|{:->12}:|{:->12}:|{:->12}:|{:->13}:|{:->18}:|",
        "", "", "", "", "", "", "", "", ""
    );
    let (mut measured, mut large) = (Vec::new(), Vec::new());
    for case in cases {
        let (outcome, times) = measure(case)?;
        println!("{}", line(case, &outcome, &times));
        measured.push(Measured {
            name: case.name.clone(),
            joins: outcome.joins,
            times,
        });
        if outcome.joins >= MANY_JOINS {
            large.push((case, times));
        }
    }
    summary(&large);
    cases.iter().filter(|case| case.name == TINY).for_each(both_calls);
    Ok(measured)
}

/// The line of a file.
fn line(case: &Case, outcome: &Outcome, times: &Times) -> String {
    let dash = || "-".to_string();
    let nanoseconds = |time| match per_join(time, outcome) {
        // Nearly all joins are counted at once.
        tiny if tiny < 0.1 => format!("{tiny:.4} ns"),
        usual => format!("{usual:.1} ns"),
    };
    format!(
        "| {:<14} | {:<7} | {:>11} | {:>5} | {:>11} | {:>11} | {:>11} | {:>12} | {:>17.2} |",
        case.name,
        outcome.verdict,
        outcome.joins,
        outcome.used,
        nanoseconds(times.proved),
        times.every.map_or_else(dash, nanoseconds),
        nanoseconds(times.semi_naive),
        times.ratio_to_every().map_or_else(dash, |ratio| format!("{ratio:.2}")),
        times.ratio_to_semi_naive(),
    )
}

/// The means of the ratios, and the greatest, beside what we aim at; and the whole times of files that are measured without `every`.
fn summary(measured: &[(&Case, Times)]) {
    println!();
    println!("Over the files with at least {MANY_JOINS} joins:");
    let to_every: Vec<f64> = measured.iter().filter_map(|(_, times)| times.ratio_to_every()).collect();
    let to_semi_naive: Vec<f64> = measured.iter().map(|(_, times)| times.ratio_to_semi_naive()).collect();
    summary_of("proved/every", &to_every, "mean at most 0.5");
    summary_of("proved/semi-naive", &to_semi_naive, "mean at most 1.0, none above 2.0");
    for (case, times) in measured.iter().filter(|(case, _)| !case.by_every) {
        let (proved, semi_naive) = (times.proved.as_secs_f64(), times.semi_naive.as_secs_f64());
        println!(
            "{}: {proved:.2} s proved (the aim: below 1 s), {semi_naive:.2} s semi-naive.",
            case.name
        );
    }
}

/// The whole time of a tiny file by both calls of the library.
fn both_calls(case: &Case) {
    let [lent, alone] = [measure_lent(case), measure_alone(case)].map(|time| time.as_secs_f64() * 1e9);
    println!(
        "{}: {lent:.0} ns over lent rows (the aim: below 2000 ns), {alone:.0} ns by a check with rows of its own.",
        case.name
    );
}

fn summary_of(what: &str, ratios: &[f64], aim: &str) {
    if ratios.is_empty() {
        return;
    }
    let mean = (ratios.iter().map(|ratio| ratio.ln()).sum::<f64>() / ratios.len() as f64).exp();
    let greatest = ratios.iter().copied().fold(0.0, f64::max);
    println!(
        "{what}: geometric mean {mean:.2}, greatest {greatest:.2}, of {} files (the aim: {aim}).",
        ratios.len()
    );
}

/// The file that the check program takes longest for, by its proved check alone, with rows of its own: with its journal and budget, without starting
/// a process.
fn worst_of_program() -> Result<(), String> {
    let cases = files::all().into_iter().map(Case::of_check_program);
    let timed = cases.map(|case| (measure_alone(&case), case));
    let (time, worst) = timed.max_by_key(|(time, _)| *time).ok_or("there is no file")?;
    let outcome = agree(&worst)?;
    println!();
    println!(
        "The check program's worst file, of {} rows and a budget of {}: {}, {} after {} joins, {:.1} ms (the aim: below 20 ms).",
        worst.rows,
        worst.budget,
        worst.name,
        outcome.verdict,
        outcome.joins,
        time.as_secs_f64() * 1e3
    );
    Ok(())
}

/// Nanoseconds for one join.
fn per_join(time: Duration, outcome: &Outcome) -> f64 {
    time.as_secs_f64() * 1e9 / outcome.joins.max(1) as f64
}
