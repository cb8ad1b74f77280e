//! The C header and this crate: the same constants, by name and number, and the same message for each refusal.

use bolfrega::Row;
use std::collections::BTreeMap;

const HEADER: &str = include_str!("../../include/bolfrega.h");

/// A list of constants by their names.
macro_rules! named {
    ($($path:path),* $(,)?) => { [$((stringify!($path), $path as u64)),*] };
}

/// The places of the details, which are a pattern in Rust, and what has no name here.
#[rustfmt::skip]
const OF_C_ALONE: [&str; 15] = [
    "RECORD", "JOINS", "USED", "PASS", "ROW", "PAIRS", "LENGTH", "REFUSED", "PROCEDURE", "DETAILS", "DETAILS_FROM", "NO_ROW", "LENGTH_CAP",
    "ENTRY_BYTES", "STEP_VALUES",
];

#[rustfmt::skip]
fn ours() -> BTreeMap<String, u64> {
    use bolfrega::*;
    let root = named![
        VERSION, MOST_RECORDS, MOST_RULES, MOST_MOVES, MOST_SYMBOLS, MOST_WIDE_SYMBOLS, RECORD_BYTES, WIDE_RECORD_BYTES, PROCEDURES, STAGES,
        CODES, FIRST_REMARK, MOST_ROWS, LONGEST_RUN, MOST_STEPS, CELLS, LIST_BYTES, WIDE_BYTES, FILE_BYTES, PROGRAM_ROWS, PROGRAM_BUDGET,
        PROGRAM_ROOM, TABLE_CELLS, NEAR_WORDS,
    ];
    let raw = named![
        raw::REFUSAL_LENGTH, raw::REFUSAL_RECORDS, raw::REFUSAL_KIND, raw::REFUSAL_ABOVE_RANGE, raw::REFUSAL_UNUSED, raw::REFUSAL_ORDER,
        raw::REFUSAL_COUNT, raw::REFUSAL_JOURNAL, raw::REFUSAL_ROW, raw::REFUSAL_ROOM, raw::REFUSAL_RUN, raw::REFUSAL_REMARK, raw::REFUSAL_LONG_RUN,
        raw::REFUSAL_TABLE, raw::REFUSAL_LIST, raw::REFUSAL_WIDE_LENGTH, raw::REFUSAL_LONG_BODY, raw::REFUSAL_CHAINS, raw::RULE, raw::MOVE,
        raw::FINISHING, raw::HOLDS, raw::BROKEN, raw::FULL, raw::SPENT, raw::EMPTY, raw::ACCEPTED, raw::TURNED_AWAY, raw::DERIVED,
        raw::NOT_DERIVED, raw::LISTED, raw::CONVERTED, raw::WRITTEN, raw::STEP_RULE, raw::STEP_MOVE, raw::STEP_FINISHING, raw::STEP_ENDED,
    ];
    let short = |(path, value): &(&str, u64)| (path.replace("raw::", "").replace(' ', ""), *value);
    root.iter().chain(&raw).map(short).collect()
}

/// The header's constants: `#define BOLFREGA_NAME NUMBER`.
fn theirs() -> BTreeMap<String, u64> {
    let line = |line: &str| {
        let (name, rest) = line.strip_prefix("#define BOLFREGA_")?.split_once(' ')?;
        Some((name.to_string(), rest.split(' ').next()?.parse().ok()?))
    };
    HEADER.lines().filter_map(line).collect()
}

#[test]
fn constants() {
    let mut theirs = theirs();
    for name in OF_C_ALONE {
        assert!(theirs.remove(name).is_some(), "the header has no {name}");
    }
    assert_eq!(theirs, ours());
}

#[test]
fn messages() {
    let said = |name: &str| {
        let (_, after) = HEADER
            .split_once(&format!("case BOLFREGA_{name}:\n        return \""))
            .unwrap();
        after.split_once("\";").unwrap().0
    };
    let refused = [
        ("REFUSAL_LENGTH", bolfrega::refusal(&[0]).unwrap_err()),
        ("REFUSAL_RECORDS", bolfrega::refusal(&[0; 8 * 1_297]).unwrap_err()),
        ("REFUSAL_KIND", bolfrega::refusal(&[0; 8]).unwrap_err()),
        (
            "REFUSAL_ABOVE_RANGE",
            bolfrega::refusal(&[3, 16, 0, 0, 0, 0, 0, 0]).unwrap_err(),
        ),
        ("REFUSAL_UNUSED", bolfrega::refusal(&[3, 0, 0, 0, 0, 0, 0, 1]).unwrap_err()),
        (
            "REFUSAL_ORDER",
            bolfrega::refusal(&[3, 0, 0, 0, 0, 0, 0, 0].repeat(2)).unwrap_err(),
        ),
        ("REFUSAL_COUNT", bolfrega::Refusal::Count { record: 256 }),
        ("REFUSAL_JOURNAL", bolfrega::check(&[], 0, 0, &mut []).unwrap_err()),
        (
            "REFUSAL_ROW",
            bolfrega::write(&[], &[Row::default()], 0, 0, &mut []).unwrap_err(),
        ),
        (
            "REFUSAL_ROOM",
            bolfrega::widen_into(&[3, 0, 0, 0, 0, 0, 0, 0], &mut []).unwrap_err(),
        ),
        ("REFUSAL_RUN", bolfrega::judge(&[], &[128]).unwrap_err()),
        ("REFUSAL_REMARK", bolfrega::refusal(&[2, 0, 120, 0, 0, 0, 0, 0]).unwrap_err()),
        ("REFUSAL_LONG_RUN", bolfrega::recognize(&[], &[0; 65]).unwrap_err()),
        ("REFUSAL_TABLE", bolfrega::Refusal::Table),
        ("REFUSAL_LIST", bolfrega::Refusal::List),
        ("REFUSAL_WIDE_LENGTH", bolfrega::narrow(&[0]).unwrap_err()),
        (
            "REFUSAL_LONG_BODY",
            bolfrega::narrow(&[1, 0, 3, 0, 0, 0, 0, 0, 0, 0, 0, 0, 0, 0, 0, 0]).unwrap_err(),
        ),
        (
            "REFUSAL_CHAINS",
            bolfrega::unfold(&[1, 63, 3, 0, 0, 0, 0, 0, 0, 0, 0, 0, 0, 0, 0, 0]).unwrap_err(),
        ),
    ];
    let numbers = theirs();
    for (name, refusal) in refused {
        assert_eq!((refusal.message(), refusal.number()), (said(name), numbers[name]));
    }
    assert_eq!(refused.len(), HEADER.matches("case BOLFREGA_REFUSAL_").count());
    let unknown = bolfrega::Refusal::Unknown { number: 99 };
    assert!(HEADER.contains(&format!("default:\n        return \"{}\";", unknown.message())));
    assert_eq!(unknown.to_string(), "an unknown number: no answer (99)");
}

/// Each word that the library has for an answer is the first of the header's message.
#[test]
fn words() {
    let holds = bolfrega::check(&[1, 0, 0, 0, 0, 0, 0, 0, 3, 0, 0, 0, 0, 0, 0, 0], 1, 9, &mut []).unwrap();
    let empty = bolfrega::check(&[], 1, 9, &mut []).unwrap();
    let spent = bolfrega::check(&[1, 0, 0, 0, 0, 0, 0, 0], 1, 0, &mut []).unwrap();
    let broken = bolfrega::check(&[1, 0, 0, 0, 0, 0, 0, 0], 1, 9, &mut []).unwrap();
    let full = bolfrega::check(&[1, 1, 0, 0, 0, 0, 0, 0, 1, 2, 0, 0, 0, 0, 0, 0], 1, 9, &mut []).unwrap();
    for verdict in [holds, empty, spent, broken, full].map(|answer| answer.verdict) {
        assert!(HEADER.contains(&format!("return \"{verdict}: ")), "{verdict}");
    }
    for judgement in [bolfrega::Judgement::Accepted, bolfrega::Judgement::TurnedAway] {
        assert!(HEADER.contains(&format!("return \"{judgement}: ")), "{judgement}");
    }
    for found in [
        bolfrega::recognize(&[], &[]).unwrap(),
        bolfrega::recognize(&[1, 0, 0, 0, 0, 0, 0, 0], &[]).unwrap(),
    ] {
        assert!(HEADER.contains(&format!("return \"{found}: ")), "{found}");
    }
}
