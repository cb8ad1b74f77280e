//! Recognizing a recorded run of 64 steps, on files that cost most.

use bolfrega::{procedure, FileBuilder};
use making::Numbers;
use std::hint::black_box;
use std::time::{Duration, Instant};

const ROUNDS: usize = 101;
const STEPS: usize = 64;

struct Case {
    name: &'static str,
    file: Vec<u8>,
    run: Vec<u8>,
}

fn all() -> Vec<Case> {
    let case = |name, making: FileBuilder| Case {
        name,
        file: making.bytes(),
        run: vec![1; STEPS],
    };
    vec![
        case("chain-of-units", chain(false)),
        case("chain-beside-empty", chain(true)),
        case("all-pairs", all_pairs()),
        case("random-rules", random_rules()),
        case("all-empty", all_empty()),
    ]
}

/// Each procedure gives only the next, alone or beside one that gives nothing; the last gives the code, or two of itself.
fn chain(beside: bool) -> FileBuilder {
    let mut making = FileBuilder::new();
    making.rule(62, &[1]).rule(62, &[procedure(62), procedure(62)]).rule(63, &[]);
    for p in 0..62 {
        if beside {
            making.rule(p, &[procedure(63), procedure(p + 1)]);
        } else {
            making.rule(p, &[procedure(p + 1)]);
        }
        making
            .rule(p, &[procedure(p), procedure(62)])
            .rule(p, &[2, procedure(p)])
            .rule(p, &[procedure(p), 3]);
    }
    making
}

/// Every procedure derives every stretch.
fn all_pairs() -> FileBuilder {
    let mut making = FileBuilder::new();
    for p in 0..64 {
        making.rule(p, &[1]);
        for other in [p, (p + 1) % 64, (p + 7) % 64] {
            making.rule(p, &[procedure(other), procedure(p)]);
        }
    }
    making
}

fn random_rules() -> FileBuilder {
    let mut numbers = Numbers::new(41);
    let mut making = FileBuilder::new();
    while making.count(1) < 256 {
        let head = numbers.byte(64);
        let mut symbol = || if numbers.once_in(4) { 1 } else { procedure(numbers.byte(64)) };
        let body = [symbol(), symbol()];
        making.rule(head, &body);
    }
    making
}

/// Every procedure gives nothing, and each gives the next two.
fn all_empty() -> FileBuilder {
    let mut making = FileBuilder::new();
    for p in 0..64 {
        making
            .rule(p, &[])
            .rule(p, &[procedure((p + 1) % 64)])
            .rule(p, &[procedure((p + 1) % 64), procedure((p + 2) % 64)]);
        making.rule(p, &[procedure(p), 1]);
    }
    making
}

/// Both implementations on every file; an error says where they differ.
pub fn agree() -> Result<usize, String> {
    let cases = all();
    for case in &cases {
        let mut table = vec![0; bolfrega::CELLS];
        let expected = plain::recognize(&case.file, &case.run, &mut table).ok();
        let found = bolfrega::recognize(&case.file, &case.run).ok();
        let same = found.is_some_and(|found| Some(found.derived()) == expected && found.cells()[..] == table[..]);
        if !same {
            return Err(format!("{}: the tables of a recorded run differ", case.name));
        }
    }
    Ok(cases.len())
}

/// A line for each file: the least and the middle time of a call, and the least beside one call of the plain implementation.
pub fn table() -> Result<(), String> {
    println!();
    println!(
        "| {:<18} | {:>5} | {:>9} | {:>9} | {:>9} | {:>7} |",
        "run of 64 steps", "rules", "least", "median", "plain", "ratio"
    );
    println!("|{:-<20}|{:->6}:|{:->10}:|{:->10}:|{:->10}:|{:->8}:|", "", "", "", "", "", "");
    for case in all() {
        let mut times: Vec<Duration> = (0..ROUNDS).map(|_| once(&case)).collect();
        times.sort();
        let ms = |time: Duration| time.as_secs_f64() * 1e3;
        let (least, median, plain) = (ms(times[0]), ms(times[ROUNDS / 2]), ms(plainly(&case)));
        let rules = case.file.chunks(8).filter(|record| record[0] == 1).count();
        println!(
            "| {:<18} | {rules:>5} | {least:>6.2} ms | {median:>6.2} ms | {plain:>6.0} ms | {:>7.4} |",
            case.name,
            least / plain
        );
    }
    Ok(())
}

fn plainly(case: &Case) -> Duration {
    let mut table = [0; bolfrega::CELLS];
    let began = Instant::now();
    let derived = plain::recognize(black_box(&case.file), black_box(&case.run), &mut table);
    black_box(derived.is_ok());
    began.elapsed()
}

fn once(case: &Case) -> Duration {
    let mut table = [0; bolfrega::CELLS];
    let mut record = 0;
    let began = Instant::now();
    black_box(bolfrega::raw::recognize(
        black_box(&case.file),
        black_box(&case.run),
        &mut record,
        &mut table,
    ));
    began.elapsed()
}
