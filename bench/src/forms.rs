//! Moving the largest files over and back, and unfolding the largest sixteen-byte files.

use bolfrega::{procedure, FileBuilder};
use std::hint::black_box;
use std::time::{Duration, Instant};

const ROUNDS: usize = 101;
/// Calls that are measured together.
const BATCH: u32 = 20;

type Proved = fn(&[u8], &mut u64, &mut u64, &mut [u8]) -> u64;
type Plain = fn(&[u8], &mut [u8]) -> Result<usize, plain::Refusal>;

struct Case {
    name: &'static str,
    file: Vec<u8>,
    proved: Proved,
    plain: Plain,
}

fn all() -> Vec<Case> {
    let case = |name, file, proved, plain| Case {
        name,
        file,
        proved,
        plain,
    };
    vec![
        case(
            "widen",
            old_rules(FileBuilder::new()).bytes(),
            bolfrega::raw::widen,
            plain::widen,
        ),
        case(
            "narrow",
            old_rules(FileBuilder::wide()).bytes(),
            bolfrega::raw::narrow,
            plain::narrow,
        ),
        case(
            "unfold-short",
            old_rules(FileBuilder::wide()).bytes(),
            bolfrega::raw::unfold,
            plain::unfold,
        ),
        case("unfold-long", long_rules().bytes(), bolfrega::raw::unfold, plain::unfold),
    ]
}

/// 1,024 moves and 16 finishing stages.
fn sheet<const WIDTH: usize>(mut making: FileBuilder<WIDTH>) -> FileBuilder<WIDTH> {
    for code in 0..64 {
        for from in 0..16 {
            making.step(from, code, (from + code) % 16);
        }
    }
    (0..16).for_each(|stage| {
        making.finishing(stage);
    });
    making
}

/// The largest file: 256 rules of two symbols, with the sheet.
fn old_rules<const WIDTH: usize>(making: FileBuilder<WIDTH>) -> FileBuilder<WIDTH> {
    let mut making = sheet(making);
    for rule in 0..=255 {
        making.rule(rule / 4, &[procedure(63 - rule / 4), rule % 128]);
    }
    making
}

/// 256 rules after unfolding, with the sheet: the seven rules of procedure 0 take all 62 chain procedures that are left, and the 187 rules of
/// procedure 1 come after them and stand before the rules of the chain procedures in the result.
fn long_rules() -> FileBuilder<16> {
    let mut making = sheet(FileBuilder::wide());
    (0..6).for_each(|code| {
        making.rule(0, &[code; 12]);
    });
    making.rule(0, &[procedure(1); 4]);
    for rule in 0..187 {
        making.rule(1, &[rule / 16, rule % 16]);
    }
    making
}

/// Both implementations on every file; an error says where they differ.
pub fn agree() -> Result<usize, String> {
    let cases = all();
    for case in &cases {
        let (mut out, mut expected) = ([7; bolfrega::WIDE_BYTES], [7; bolfrega::WIDE_BYTES]);
        let (mut record, mut length) = (0, 0);
        let code = (case.proved)(&case.file, &mut record, &mut length, &mut out);
        let count = (case.plain)(&case.file, &mut expected).ok();
        if code != bolfrega::raw::CONVERTED || Some(length as usize) != count || out != expected {
            return Err(format!("{}: the results differ", case.name));
        }
    }
    Ok(cases.len())
}

/// A line for each file: the least and the middle time of a call, the least of the plain implementation in turn with it, and the ratio.
pub fn table() -> Result<(), String> {
    println!();
    println!(
        "| {:<14} | {:>7} | {:>7} | {:>9} | {:>9} | {:>9} | {:>6} |",
        "two forms", "records", "result", "least", "median", "plain", "ratio"
    );
    println!(
        "|{:-<16}|{:->8}:|{:->8}:|{:->10}:|{:->10}:|{:->10}:|{:->7}:|",
        "", "", "", "", "", "", ""
    );
    for case in all() {
        let (mut times, mut plain): (Vec<Duration>, Vec<Duration>) = (0..ROUNDS).map(|_| (proved(&case), plainly(&case))).unzip();
        times.sort();
        plain.sort();
        let us = |time: Duration| time.as_secs_f64() * 1e6;
        let width = if case.name == "widen" { 8 } else { 16 };
        let result = (case.plain)(&case.file, &mut [0; bolfrega::WIDE_BYTES]).unwrap_or(0);
        println!(
            "| {:<14} | {:>7} | {result:>7} | {:>6.1} us | {:>6.1} us | {:>6.1} us | {:>6.2} |",
            case.name,
            case.file.len() / width,
            us(times[0]),
            us(times[ROUNDS / 2]),
            us(plain[0]),
            us(times[0]) / us(plain[0])
        );
    }
    Ok(())
}

fn proved(case: &Case) -> Duration {
    let mut out = [0; bolfrega::WIDE_BYTES];
    let (mut record, mut length) = (0, 0);
    let began = Instant::now();
    for _ in 0..BATCH {
        black_box((case.proved)(black_box(&case.file), &mut record, &mut length, &mut out));
    }
    began.elapsed() / BATCH
}

fn plainly(case: &Case) -> Duration {
    let mut out = [0; bolfrega::WIDE_BYTES];
    let began = Instant::now();
    for _ in 0..BATCH {
        black_box((case.plain)(black_box(&case.file), &mut out).is_ok());
    }
    began.elapsed() / BATCH
}
