//! At every limit of document 01.

mod common;

use bolfrega::{procedure, raw, FileBuilder};
use common::{checking, judging, reading};
use plain::FIRST_REMARK;

/// A mapping of the stages that takes each one further; with `swap` it makes every order of eight stages.
const ROUND: [u8; 8] = [1, 2, 3, 4, 5, 6, 7, 0];
const SWAP: [u8; 8] = [1, 0, 2, 3, 4, 5, 6, 7];

/// 1,024 moves: each code that is no remark leads to one stage from each, and the first eight of them lead to another besides.
fn moves_on_every_code(making: &mut FileBuilder) {
    for code in 0..FIRST_REMARK {
        making.mapping(code, ROUND.map(|to| (to + code) % 8));
    }
    for code in 0..8 {
        making.mapping(code, ROUND.map(|to| (to + code + 1) % 8));
    }
}

/// The largest file: 256 rules, 1,024 moves and 16 finishing stages.
fn largest() -> FileBuilder {
    let mut making = FileBuilder::new();
    for rule in 0..=255 {
        making.rule(rule / 4, &[procedure(63 - rule / 4), rule % 128]);
    }
    moves_on_every_code(&mut making);
    (0..16).for_each(|stage| {
        making.finishing(stage);
    });
    making
}

#[test]
fn records() {
    let making = largest();
    assert_eq!([1, 2, 3].map(|kind| making.count(kind)), [256, 1_024, 16]);
    let mut file = making.bytes();
    assert_eq!(reading(&file), (0, 0));
    assert_eq!(judging(&file, &[0, 127]), (raw::ACCEPTED, 0));
    checking(&file, 4_096, 50_000, 100);
    file.extend([3, 15, 0, 0, 0, 0, 0, 1]);
    assert_eq!(file.len(), 8 * 1_297);
    assert_eq!(reading(&file), (2, 0));
    file.push(0);
    assert_eq!(reading(&file), (1, 0));
}

#[test]
fn a_rule_or_a_move_too_many() {
    let file = FileBuilder::clone(&largest()).rule(63, &[191, 191]).bytes();
    assert_eq!(reading(&file), (2, 0));

    let mut rules = FileBuilder::new();
    (0..=255).for_each(|rule| {
        rules.rule(rule / 4, &[rule % 128]);
    });
    assert_eq!(reading(&rules.bytes()), (0, 0));
    rules.step(0, 0, 0).rule(63, &[191, 191]);
    assert_eq!(reading(&rules.bytes()), (7, 256));
    // 258 rules: the 257th is named.
    assert_eq!(reading(&rules.rule(63, &[191, 190]).bytes()), (7, 256));

    let mut moves = FileBuilder::new();
    moves_on_every_code(&mut moves);
    moves.finishing(0);
    assert_eq!(reading(&moves.bytes()), (0, 0));
    assert_eq!(reading(&moves.step(7, FIRST_REMARK - 1, 1).bytes()), (7, 1_024));
    assert_eq!(reading(&moves.rule(0, &[]).bytes()), (7, 1_025));
}

#[test]
fn last_values() {
    let mut making = FileBuilder::new();
    making.rule(63, &[191, 127]).step(15, FIRST_REMARK - 1, 15).finishing(15);
    assert_eq!(reading(&making.bytes()), (0, 0));
    for record in [
        [1, 63, 2, 191, 192, 0, 0, 0],
        [1, 64, 0, 0, 0, 0, 0, 0],
        [2, 15, 128, 15, 0, 0, 0, 0],
        [2, 16, 0, 0, 0, 0, 0, 0],
        [2, 0, 0, 16, 0, 0, 0, 0],
        [3, 16, 0, 0, 0, 0, 0, 0],
    ] {
        assert_eq!(reading(&record), (4, 0));
    }
    assert_eq!(reading(&[1, 63, 1, 192, 0, 0, 0, 0]), (4, 0));
}

/// Procedure 63 gives a code, each other procedure the one above it: 64 passes up to procedure 0, and one more.
#[test]
fn sixty_four_procedures() {
    let mut making = FileBuilder::new();
    (0..63).for_each(|head| {
        making.rule(head, &[procedure(head + 1)]);
    });
    making.rule(63, &[9]).step(0, 9, 3);
    let (code, details, buffer) = checking(&making.bytes(), 64, 1_000_000, 2);
    assert_eq!(
        (code, details[2], details[3], details[4..].to_vec()),
        (raw::BROKEN, 64, 64, vec![63, 1, 1, 0])
    );
    assert_eq!(buffer, [9, 201]);
    let (code, details, _) = checking(&making.finishing(3).bytes(), 64, 1_000_000, 2);
    assert_eq!((code, details[2], details[3]), (raw::HOLDS, 64, 65));
    let (code, details, _) = checking(&making.bytes(), 63, 1_000_000, 2);
    assert_eq!((code, details[2]), (raw::FULL, 63));
}

/// Orders of eight stages, all incomparable, until the journal is full.
#[test]
fn rows() {
    let mut making = FileBuilder::new();
    making.rule(1, &[1]).rule(1, &[2]).rule(1, &[procedure(1), procedure(1)]);
    making.mapping(1, ROUND).mapping(2, SWAP);
    let file = making.bytes();
    for rows in [0, 4_097, 65_536, usize::MAX] {
        let (code, details, _) = checking(&file, rows, 1_000, 5);
        assert_eq!((code, details), (8, [0; 8]));
    }
    for rows in [1, 2, 3, 500, 4_095, 4_096] {
        let (code, details, _) = checking(&file, rows, 1_000_000_000, 5);
        assert_eq!((code, details[2]), (raw::FULL, rows as u64));
    }
}

#[test]
fn rows_of_refused_files() {
    let (code, ..) = checking(&[0; 8], 0, 0, 0);
    assert_eq!(code, 3);
    let (code, ..) = checking(&[], 0, 0, 0);
    assert_eq!(code, 8);
}

#[test]
fn budgets() {
    let file = FileBuilder::new().rule(1, &[1]).rule(2, &[1]).bytes();
    for (budget, expected) in [
        (0, raw::SPENT),
        (1, raw::SPENT),
        (2, raw::SPENT),
        (3, raw::SPENT),
        (4, raw::EMPTY),
        (5, raw::EMPTY),
        (u64::MAX, raw::EMPTY),
    ] {
        let (code, details, _) = checking(&file, 4_096, budget, 0);
        assert_eq!((code, details[1]), (expected, budget.min(4)));
    }
}

/// Procedure 0 gives one run of exactly this length, and the sheet turns each run away. Procedure 10 + k gives 2^k steps.
fn one_run(length: u32) -> Vec<u8> {
    let mut making = FileBuilder::new();
    making.rule(10, &[77]).step(0, 77, 0);
    for k in 1..17 {
        making.rule(10 + k, &[procedure(9 + k), procedure(9 + k)]);
    }
    // Procedure 40 + k gives the last k binary digits' worth of steps; procedure 40 gives nothing.
    making.rule(40, &[]);
    for k in 0..17 {
        let rest = procedure(40 + k);
        if length >> k & 1 == 1 {
            making.rule(41 + k, &[rest, procedure(10 + k)]);
        } else {
            making.rule(41 + k, &[rest]);
        }
    }
    making.rule(0, &[procedure(57)]).bytes()
}

#[test]
fn long_runs() {
    for (length, room, refused) in [
        (0, 0, 0),
        (1, 0, 10),
        (1, 1, 0),
        (4_096, 4_095, 10),
        (4_096, 4_096, 0),
        (65_534, 65_533, 10),
        (65_534, 65_534, 0),
        (65_534, 70_000, 0),
        (65_535, 70_000, 10),
        (65_536, 70_000, 10),
        (131_071, 140_000, 10),
    ] {
        let (code, details, buffer) = checking(&one_run(length), 4_096, 100_000, room);
        assert_eq!(
            (code, details[6], details[7]),
            (raw::BROKEN, length.min(65_535).into(), refused)
        );
        let written = if refused == 0 { length as usize } else { 0 };
        assert_eq!(buffer.iter().filter(|&&byte| byte == 77).count(), written);
    }
}

/// Lengths double in each procedure: 2^62 steps behind a row whose length is the cap.
#[test]
fn lengths_far_above_the_cap() {
    let mut making = FileBuilder::new();
    making.rule(63, &[5]).step(0, 5, 0);
    (0..63).for_each(|head| {
        making.rule(head, &[procedure(head + 1), procedure(head + 1)]);
    });
    let (code, details, _) = checking(&making.bytes(), 100, 100_000, 70_000);
    assert_eq!((code, details[6], details[7]), (raw::BROKEN, 65_535, 10));
}

/// Nothing upon nothing: a derivation of 2^63 rules whose run is empty.
#[test]
fn rows_of_length_0() {
    let mut making = FileBuilder::new();
    making.rule(63, &[]);
    (0..63).for_each(|head| {
        making.rule(head, &[procedure(head + 1), procedure(head + 1)]);
    });
    let (code, details, _) = checking(&making.bytes(), 100, 100_000, 3);
    assert_eq!((code, details[5..].to_vec()), (raw::BROKEN, vec![16, 0, 0]));
}

#[test]
fn runs_to_judge() {
    let file = FileBuilder::new()
        .mapping(0, SWAP)
        .mapping(FIRST_REMARK - 1, ROUND)
        .finishing(0)
        .bytes();
    for length in [0, 1, 2, 65_533, 65_534] {
        let expected = if length % 2 == 0 {
            (raw::ACCEPTED, 0)
        } else {
            (raw::TURNED_AWAY, 0)
        };
        assert_eq!(judging(&file, &vec![0; length]), expected);
    }
    assert_eq!(judging(&file, &vec![FIRST_REMARK - 1; 65_528]), (raw::ACCEPTED, 0));
    // Remarks count in the length, and stay in the stage.
    assert_eq!(judging(&file, &vec![127; 65_534]), (raw::ACCEPTED, 0));
    assert_eq!(judging(&file, &[0, FIRST_REMARK, 127]), (raw::TURNED_AWAY, 0));
    assert_eq!(judging(&file, &vec![0; 65_535]), (11, 0));
    assert_eq!(judging(&file, &vec![127; 65_535]), (11, 0));
    assert_eq!(judging(&file, &vec![0; 1_000_000]), (11, 0));
    assert_eq!(judging(&file, &[128]), (11, 0));
    let mut run = vec![0; 65_534];
    run[65_533] = 255;
    assert_eq!(judging(&file, &run), (11, 0));
    // The file is checked first.
    assert_eq!(judging(&[9; 8], &run), (3, 0));
}
