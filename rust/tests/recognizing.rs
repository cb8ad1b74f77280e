//! Recorded runs: whether the plan derives them, and each cell of the table, beside the plain implementation.

mod common;

use bolfrega::{procedure, raw, recognize, FileBuilder, CELLS};
use common::{checking, judging, recognizing};
use making::{valid_file, Numbers, Size};

const TINY: Size = Size {
    procedures: 2,
    rules: 5,
    codes: 2,
    moves: 4,
};
const SMALL: Size = Size {
    procedures: 4,
    rules: 10,
    codes: 2,
    moves: 8,
};
const MIDDLE: Size = Size {
    procedures: 10,
    rules: 40,
    codes: 4,
    moves: 20,
};
const LARGE: Size = Size {
    procedures: 64,
    rules: 256,
    codes: 8,
    moves: 40,
};

/// Recognizes a run of at most `longest` steps on each of `rounds` files. Returns how many were not derived and how many were.
fn many(seed: u64, size: Size, rounds: usize, longest: usize) -> [usize; 2] {
    let mut numbers = Numbers::new(seed);
    let mut seen = [0; 2];
    for _ in 0..rounds {
        let file = valid_file(&mut numbers, size);
        let steps = numbers.below(longest + 1);
        let run: Vec<u8> = (0..steps).map(|_| numbers.byte(size.codes)).collect();
        let (code, ..) = recognizing(&file, &run, CELLS);
        seen[usize::from(code == raw::DERIVED)] += 1;
    }
    seen
}

#[test]
fn tiny_files() {
    let seen = many(31, TINY, 5_000, 8);
    assert!(seen.iter().all(|&times| times > 300), "{seen:?}");
}

#[test]
fn small_files() {
    let seen = many(32, SMALL, 3_500, 12);
    assert!(seen.iter().all(|&times| times > 200), "{seen:?}");
}

#[test]
fn middle_files() {
    let seen = many(33, MIDDLE, 1_400, 20);
    assert!(seen.iter().all(|&times| times > 50), "{seen:?}");
}

#[test]
fn large_files() {
    let seen = many(34, LARGE, 100, 64);
    assert!(seen.iter().all(|&times| times > 2), "{seen:?}");
}

/// A run that a broken check shows is one of the plan's; and one that is, where the check holds, is accepted.
#[test]
fn beside_the_other_calls() {
    let mut numbers = Numbers::new(35);
    let (mut shown, mut accepted) = (0, 0);
    for _ in 0..2_000 {
        let file = valid_file(&mut numbers, SMALL);
        let (code, details, buffer) = checking(&file, 1_024, 30_000, 64);
        let run: Vec<u8> = (0..numbers.below(6)).map(|_| numbers.byte(SMALL.codes)).collect();
        match code {
            raw::BROKEN if details[7] == 0 => {
                assert_eq!(recognizing(&file, &buffer[..details[6] as usize], CELLS).0, raw::DERIVED);
                shown += 1;
            }
            raw::HOLDS if recognizing(&file, &run, CELLS).0 == raw::DERIVED => {
                assert_eq!(judging(&file, &run), (raw::ACCEPTED, 0));
                accepted += 1;
            }
            _ => {}
        }
    }
    assert!(shown > 200 && accepted > 5, "{shown} {accepted}");
}

/// The numbers in their order: the file, 11, 13, 14; and a table that is left as it was.
#[test]
fn refusals() {
    let mut making = FileBuilder::new();
    let file = making.rule(0, &[5]).bytes();
    let long = [5; 65];
    let strange = [[5; 64].as_slice(), &[128]].concat();
    assert_eq!(recognizing(&file[..7], &strange, 0).0, 1);
    assert_eq!(recognizing(&[9, 0, 0, 0, 0, 0, 0, 0], &strange, 0).0, 3);
    assert_eq!(recognizing(&file, &strange, 0).0, 11);
    assert_eq!(recognizing(&file, &long, 0).0, 13);
    assert_eq!(recognizing(&file, &long, CELLS).0, 13);
    assert_eq!(recognizing(&file, &vec![5; 65_534], CELLS).0, 13);
    assert_eq!(recognizing(&file, &vec![5; 65_535], CELLS).0, 11);
    for cells in [0, 1, CELLS - 1, CELLS + 1, 4_290] {
        assert_eq!(recognizing(&file, &[5; 64], cells).0, 14);
    }
    assert_eq!(recognizing(&file, &[5; 64], CELLS).0, raw::NOT_DERIVED);
    assert_eq!(recognizing(&file, &[5], CELLS).0, raw::DERIVED);
    assert_eq!(recognizing(&[], &[], CELLS).0, raw::NOT_DERIVED);
}

/// Chains of procedures that give only the next, cycles, empty bodies on both sides; the longest run.
#[test]
fn at_the_limits() {
    let mut chain = FileBuilder::new();
    for p in 0..63 {
        chain
            .rule(p, &[procedure(p + 1)])
            .rule(p, &[procedure(p + 1), procedure(63)])
            .rule(p, &[procedure(63), procedure(p)]);
    }
    chain.rule(63, &[]).rule(63, &[127]);
    let file = chain.bytes();
    assert_eq!(recognizing(&file, &[127; 64], CELLS).0, raw::DERIVED);
    assert_eq!(recognizing(&file, &[], CELLS).0, raw::DERIVED);

    let mut ring = FileBuilder::new();
    for p in 0..64 {
        ring.rule(p, &[procedure((p + 1) % 64)]);
    }
    assert_eq!(recognizing(&ring.bytes(), &[1], CELLS).0, raw::NOT_DERIVED);
    ring.rule(40, &[1]).rule(40, &[procedure(7), procedure(9)]);
    let file = ring.bytes();
    assert_eq!(recognizing(&file, &[1; 64], CELLS).0, raw::DERIVED);

    let found = recognize(&file, &[1, 1, 2]).unwrap();
    assert!(found.derives(63, 0..2) && !found.derived() && !found.derives(64, 0..2) && !found.derives(0, 0..4));
    assert_eq!(
        (found.procedures(1..2), found.procedures(2..3), found.steps()),
        (u64::MAX, 0, 3)
    );
}
