//! Listing a sheet's gaps and doubles, on the largest sheets.

use bolfrega::FileBuilder;
use std::hint::black_box;
use std::time::{Duration, Instant};

const ROUNDS: usize = 101;
const PLAIN_ROUNDS: usize = 11;
/// Calls that are measured together.
const BATCH: u32 = 20;

struct Case {
    name: &'static str,
    file: Vec<u8>,
}

fn all() -> Vec<Case> {
    let case = |name, making: FileBuilder| Case {
        name,
        file: making.bytes(),
    };
    vec![
        case("no-gap", no_gap()),
        case("every-pair", every_pair()),
        case("largest-file", largest_file()),
    ]
}

/// 1,024 moves: one for each of 16 stages and 64 codes.
fn no_gap() -> FileBuilder {
    let mut making = FileBuilder::new();
    for code in 0..64 {
        for from in 0..16 {
            making.step(from, code, (from + code) % 16);
        }
    }
    making
}

/// 1,024 moves, of which no pair of a stage and a code has one alone; every stage and every code is used.
fn every_pair() -> FileBuilder {
    let mut making = FileBuilder::new();
    for code in 0..120 {
        for from in 0..4 {
            making.step(from, code, 0).step(from, code, 15);
        }
    }
    for code in 0..32 {
        making.step(4, code, 0).step(4, code, 15);
    }
    (0..16).for_each(|stage| {
        making.finishing(stage);
    });
    making
}

/// The same with 256 rules.
fn largest_file() -> FileBuilder {
    let mut making = every_pair();
    for rule in 0..=255 {
        making.rule(rule / 4, &[rule % 128]);
    }
    making
}

/// Both implementations on every file; an error says where they differ.
pub fn agree() -> Result<usize, String> {
    let cases = all();
    for case in &cases {
        let (mut list, mut expected) = ([7; bolfrega::LIST_BYTES], [7; bolfrega::LIST_BYTES]);
        let (mut record, mut entries) = (0, 0);
        let code = bolfrega::raw::list(&case.file, &mut record, &mut entries, &mut list);
        let count = plain::list(&case.file, &mut expected).ok();
        if code != bolfrega::raw::LISTED || Some(entries as usize) != count || list != expected {
            return Err(format!("{}: the lists differ", case.name));
        }
    }
    Ok(cases.len())
}

/// A line for each file: the least and the middle time of a call, and the least of the plain implementation.
pub fn table() -> Result<(), String> {
    println!();
    println!(
        "| {:<14} | {:>5} | {:>7} | {:>9} | {:>9} | {:>11} |",
        "gaps, doubles", "moves", "entries", "least", "median", "plain"
    );
    println!("|{:-<16}|{:->6}:|{:->8}:|{:->10}:|{:->10}:|{:->12}:|", "", "", "", "", "", "");
    for case in all() {
        let mut times: Vec<Duration> = (0..ROUNDS).map(|_| proved(&case)).collect();
        times.sort();
        let us = |time: Duration| time.as_secs_f64() * 1e6;
        let moves = case.file.chunks(8).filter(|record| record[0] == 2).count();
        let entries = bolfrega::gaps(&case.file).map_or(0, |gaps| gaps.len());
        println!(
            "| {:<14} | {moves:>5} | {entries:>7} | {:>6.1} us | {:>6.1} us | {:>8.0} us |",
            case.name,
            us(times[0]),
            us(times[ROUNDS / 2]),
            us(plainly(&case))
        );
    }
    Ok(())
}

/// The least of some calls of the plain implementation.
fn plainly(case: &Case) -> Duration {
    let mut list = [0; bolfrega::LIST_BYTES];
    let mut once = || {
        let began = Instant::now();
        black_box(plain::list(black_box(&case.file), &mut list).is_ok());
        began.elapsed()
    };
    (0..PLAIN_ROUNDS).map(|_| once()).min().unwrap_or_default()
}

fn proved(case: &Case) -> Duration {
    let mut list = [0; bolfrega::LIST_BYTES];
    let (mut record, mut entries) = (0, 0);
    let began = Instant::now();
    for _ in 0..BATCH {
        black_box(bolfrega::raw::list(
            black_box(&case.file),
            &mut record,
            &mut entries,
            &mut list,
        ));
    }
    began.elapsed() / BATCH
}
