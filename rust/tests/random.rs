//! Valid files at random: answers, details and buffers agree.

mod common;

use bolfrega::raw;
use common::{checking, judging, ordinary};
use making::{valid_file, Numbers, Size};
use plain::FIRST_REMARK;

const TINY: Size = Size {
    procedures: 2,
    rules: 5,
    codes: 3,
    moves: 8,
};
const SMALL: Size = Size {
    procedures: 4,
    rules: 10,
    codes: 4,
    moves: 16,
};
const MIDDLE: Size = Size {
    procedures: 10,
    rules: 40,
    codes: 8,
    moves: 60,
};
const DENSE: Size = Size {
    procedures: 3,
    rules: 12,
    codes: 5,
    moves: 150,
};
const LARGE: Size = Size {
    procedures: 64,
    rules: 256,
    codes: FIRST_REMARK as usize,
    moves: 1_024,
};

/// Checks `rounds` files of a size. Returns how often each verdict came: holds, broken, full, spent, empty.
fn many(seed: u64, size: Size, rounds: usize) -> [usize; 5] {
    let mut numbers = Numbers::new(seed);
    let mut seen = [0; 5];
    for _ in 0..rounds {
        let file = valid_file(&mut numbers, size);
        let rows = numbers.pick(&[1, 2, 3, 5, 20, 100, 1_024, 4_096]);
        let budget = numbers.pick(&[0, 1, 2, 10, 100, 1_000, 5_000, 20_000]);
        let room = numbers.pick(&[0, 1, 2, 5, 40, 4_096]);
        let (code, ..) = checking(&file, rows, budget, room);
        seen[code as usize - raw::HOLDS as usize] += 1;
    }
    seen
}

#[test]
fn tiny_files() {
    let seen = many(11, TINY, 6_000);
    assert!(seen.iter().all(|&times| times > 50), "{seen:?}");
}

#[test]
fn small_files() {
    let seen = many(12, SMALL, 4_000);
    assert!(seen.iter().all(|&times| times > 50), "{seen:?}");
}

#[test]
fn middle_files() {
    let seen = many(13, MIDDLE, 3_000);
    assert!(seen.iter().all(|&times| times > 20), "{seen:?}");
}

#[test]
fn dense_sheets() {
    let seen = many(14, DENSE, 1_000);
    assert!(seen.iter().all(|&times| times > 20), "{seen:?}");
}

#[test]
fn large_files() {
    let seen = many(15, LARGE, 150);
    assert!(seen[2] > 5 && seen[3] > 5, "{seen:?}");
}

/// Around the joins and the used rows of each answer: one less, as many, one more.
#[test]
fn around_the_answer() {
    let mut numbers = Numbers::new(16);
    for round in 0..800 {
        let file = valid_file(&mut numbers, [TINY, SMALL][round % 2]);
        let (code, details) = ordinary(&file);
        let [_, joins, used, ..] = details;
        for budget in [0, 1, joins.saturating_sub(1), joins, joins + 1, u64::MAX] {
            // A larger budget is for answers that are firm: another check might never end in time.
            if budget <= joins || [raw::HOLDS, raw::BROKEN, raw::EMPTY].contains(&code) {
                checking(&file, 1_024, budget, 300);
            }
        }
        for rows in [1, used.saturating_sub(1), used, used + 1, 4_096] {
            if rows > 0 {
                checking(&file, rows as usize, 30_000, 300);
            }
        }
    }
}

/// Every budget up to the joins of an answer, so that it runs out at each candidate once, also at those that the pass before formed.
#[test]
fn every_budget() {
    let mut numbers = Numbers::new(20);
    let mut late = 0;
    for round in 0..400 {
        let file = valid_file(&mut numbers, [TINY, SMALL][round % 2]);
        let (_, details) = ordinary(&file);
        let [_, joins, _, pass, ..] = details;
        if joins <= 400 {
            for budget in 0..=joins {
                checking(&file, 1_024, budget, 40);
            }
            late += usize::from(pass > 3);
        }
    }
    assert!(late > 20, "{late}");
}

/// A shown run is turned away, and it stays the shown one with any room that suffices.
#[test]
fn shown_runs() {
    let mut numbers = Numbers::new(17);
    let mut longest = 0;
    for _ in 0..1_500 {
        let file = valid_file(&mut numbers, SMALL);
        let (code, details, buffer) = checking(&file, 1_024, 30_000, 300);
        if code == raw::BROKEN {
            let length = details[6] as usize;
            let run = &buffer[..length];
            assert_eq!(judging(&file, run), (raw::TURNED_AWAY, 0));
            checking(&file, 1_024, 30_000, length);
            checking(&file, 1_024, 30_000, length.saturating_sub(1));
            longest = longest.max(length);
        }
    }
    assert!(longest > 3, "the longest shown run has {longest} steps");
}

/// A code below 5, and once in 6 a remark.
fn step_or_remark(numbers: &mut Numbers) -> u8 {
    if numbers.once_in(6) {
        FIRST_REMARK + numbers.byte(8)
    } else {
        numbers.byte(5)
    }
}

#[test]
fn runs_at_random() {
    let mut numbers = Numbers::new(18);
    let mut seen = [0; 2];
    for round in 0..3_000 {
        let file = valid_file(&mut numbers, SMALL);
        let run: Vec<u8> = (0..round % 12).map(|_| step_or_remark(&mut numbers)).collect();
        seen[judging(&file, &run).0 as usize - raw::ACCEPTED as usize] += 1;
    }
    assert!(seen.iter().all(|&times| times > 200), "{seen:?}");
}

/// Striking the remarks from a run changes no judgement.
#[test]
fn runs_without_their_remarks() {
    let mut numbers = Numbers::new(19);
    for round in 0..3_000 {
        let file = valid_file(&mut numbers, SMALL);
        let run: Vec<u8> = (0..round % 12).map(|_| step_or_remark(&mut numbers)).collect();
        let struck: Vec<u8> = run.iter().copied().filter(|&code| code < FIRST_REMARK).collect();
        assert_eq!(judging(&file, &run), judging(&file, &struck));
    }
}
