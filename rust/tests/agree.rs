//! Every call on the samples and on 10,000 files at random and damaged: the library and the plain implementation agree. C, C++ and
//! Python go through the same cases (tests/agree).

use bolfrega::raw;
use making::calls::{case_of, cases, Call, Case};
use std::collections::{BTreeMap, BTreeSet};
use std::fs;

/// Makes the calls of a case on both, which must agree. Returns the name of each call with the number that it gave.
fn agreed(case: Case) -> Vec<(String, u64)> {
    let Case { file, run, calls } = case;
    let agreed = |call: Call| {
        let expected = call.plainly(&file, &run);
        assert_eq!(call.proved(&file, &run), expected, "{call} of {run:?} on {file:?}");
        (call.to_string().split(' ').next().unwrap().to_string(), expected.number)
    };
    calls.into_iter().map(agreed).collect()
}

#[test]
fn samples() {
    let folder = concat!(env!("CARGO_MANIFEST_DIR"), "/../samples");
    let paths = fs::read_dir(folder).unwrap().map(|entry| entry.unwrap().path());
    let files = paths.filter(|path| path.extension().is_some_and(|end| end == "plan" || end == "wide"));
    let calls: usize = files.map(|path| agreed(case_of(fs::read(path).unwrap())).len()).sum();
    assert!(calls >= 20 * 15, "{calls}");
}

#[test]
fn every_call() {
    let mut seen: BTreeMap<String, BTreeSet<u64>> = BTreeMap::new();
    for case in cases(10_000) {
        for (name, number) in agreed(case) {
            seen.entry(name).or_default().insert(number);
        }
    }
    // Each call comes to every number that it can give.
    let file = [1, 2, 3, 4, 5, 6, 7, 12];
    let wide_file = [2, 3, 4, 5, 6, 7, 12, 16];
    let step = [raw::STEP_RULE, raw::STEP_MOVE, raw::STEP_FINISHING, raw::STEP_ENDED];
    let expected: [(&str, &[u64], &[u64]); 13] = [
        ("refusal", &file, &[0]),
        ("judge", &file, &[11, raw::ACCEPTED, raw::TURNED_AWAY]),
        ("recognize", &file, &[11, 13, 14, raw::DERIVED, raw::NOT_DERIVED]),
        ("list", &file, &[15, raw::LISTED]),
        ("widen", &file, &[10, raw::CONVERTED]),
        ("narrow", &wide_file, &[10, 17, raw::CONVERTED]),
        ("unfold", &wide_file, &[10, 18, raw::CONVERTED]),
        ("unfold_from", &wide_file, &[10, 18, raw::CONVERTED]),
        (
            "check",
            &file,
            &[8, raw::HOLDS, raw::BROKEN, raw::FULL, raw::SPENT, raw::EMPTY],
        ),
        (
            "check_from",
            &file,
            &[8, raw::HOLDS, raw::BROKEN, raw::FULL, raw::SPENT, raw::EMPTY],
        ),
        (
            "check_rows",
            &file,
            &[8, raw::HOLDS, raw::BROKEN, raw::FULL, raw::SPENT, raw::EMPTY],
        ),
        ("write", &file, &[8, 9, 10, raw::WRITTEN]),
        ("step", &file, &step),
    ];
    // This one gives no number, but places.
    assert!(seen.remove("moves").is_some_and(|offsets| offsets.len() > 10));
    assert_eq!(seen.len(), expected.len());
    for (name, refused, others) in expected {
        assert_eq!(seen[name], refused.iter().chain(others).copied().collect(), "{name}");
    }
}
