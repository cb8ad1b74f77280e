//! `bolfrega make`: a file from the lines that `show` prints, in any order.

use crate::arguments::Arguments;
use crate::status::{Status, Trouble};
use crate::streams::Streams;
use crate::words::{escaped, shown};
use bolfrega::{procedure, refusal, wide_refusal, FileBuilder, Refusal, RECORD_BYTES, WIDE_RECORD_BYTES};
use std::collections::BTreeMap;

pub fn run(arguments: &Arguments, streams: &mut Streams) -> Result<Status, Trouble> {
    let (from, to) = arguments.two_files()?;
    let text = streams.text(from)?;
    let lines = if arguments.wide {
        read::<WIDE_RECORD_BYTES>(&text)
    } else {
        read::<RECORD_BYTES>(&text)
    };
    let at = |(line, why): (usize, String)| Trouble::new(format!("{}:{line}: {why}", shown(from)));
    let lines = lines.map_err(at)?;
    let file: Vec<u8> = lines.keys().flatten().copied().collect();
    let checked = if arguments.wide { wide_refusal(&file) } else { refusal(&file) };
    match checked {
        Ok(()) => {
            streams.write_file(to, &file)?;
            Ok(Status::Holds)
        }
        Err(refusal) => {
            Trouble::new(format!("{}{}", shown(from), refused(&lines, refusal))).tell();
            Ok(Status::of_refusal(refusal))
        }
    }
}

/// The records of a text, in file order, each with its line from 1.
type Lines = BTreeMap<Vec<u8>, usize>;

/// Where in the text a record is refused, and why.
fn refused(lines: &Lines, refusal: Refusal) -> String {
    let line = refusal.record().and_then(|record| lines.values().nth(record as usize));
    let place = line.map_or(String::new(), |line| format!(":{line}"));
    format!("{place}: refused: {} ({})", refusal.message(), refusal.number())
}

/// Reads a text; else the line that cannot be read, and why.
fn read<const WIDTH: usize>(text: &str) -> Result<Lines, (usize, String)> {
    let mut lines = Lines::new();
    for (line, words) in (1..).zip(text.lines()) {
        let words = words_of(words);
        if words.is_empty() {
            continue;
        }
        let record = record::<WIDTH>(&words).ok_or_else(|| (line, format!("no record: {}", escaped(&words.join(" ")))))?;
        if let Some(before) = lines.insert(record, line) {
            return Err((line, format!("the same record as in line {before}")));
        }
    }
    Ok(lines)
}

/// The words of a line, without a comment and without the number that `show` puts first. Brackets are words of their own.
fn words_of(line: &str) -> Vec<String> {
    let line = line.split('#').next().unwrap_or_default();
    let line = match line.split_once(':') {
        Some((number, rest)) if number.trim().parse::<u64>().is_ok() => rest,
        _ => line,
    };
    let spaced = line.replace('(', " ( ").replace(')', " ) ");
    spaced.split_whitespace().map(str::to_string).collect()
}

/// The record in the words of a line.
fn record<const WIDTH: usize>(words: &[String]) -> Option<Vec<u8>> {
    let number = |word: &str| word.parse::<u8>().ok();
    let words: Vec<&str> = words.iter().map(String::as_str).collect();
    let mut file = FileBuilder::<WIDTH>::default();
    let made = match words[..] {
        [head, "gives", "nothing"] => file.rule(number(head)?, &[]),
        [head, "gives", _, ..] => file.rule(number(head)?, &body(&words[2..])?),
        ["from", "stage", from, "on", "code", code, "to", "stage", to] => file.step(number(from)?, number(code)?, number(to)?),
        ["stage", stage, "is", "finishing"] => file.finishing(number(stage)?),
        _ => return None,
    };
    Some(made.bytes())
}

/// The symbols of a body.
fn body(mut words: &[&str]) -> Option<Vec<u8>> {
    let mut symbols = Vec::new();
    while !words.is_empty() {
        let (symbol, rest) = match words {
            ["(", "procedure", number, ")", rest @ ..] => (procedure(number.parse().ok()?), rest),
            [code, rest @ ..] => (code.parse().ok().filter(|&code: &u8| code < bolfrega::CODES)?, rest),
            [] => return None,
        };
        symbols.push(symbol);
        words = rest;
    }
    Some(symbols)
}
