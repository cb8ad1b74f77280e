//! Damaged files: every number, with its record.

mod common;

use common::{checking, judging, reading};
use making::{damage, valid_file, Numbers, Size};
use plain::FIRST_REMARK;

const RULE: [u8; 8] = [1, 5, 2, 7, 130, 0, 0, 0];
const STEP: [u8; 8] = [2, 3, 90, 4, 0, 0, 0, 0];
const LAST: [u8; 8] = [3, 6, 0, 0, 0, 0, 0, 0];

/// The three records with one byte changed, and what refuses the file.
fn changed(record: usize, byte: usize, value: u8) -> (u64, u64) {
    let mut file = [RULE, STEP, LAST].concat();
    file[8 * record + byte] = value;
    every_call(&file)
}

/// Reads, judges and checks a file: all three refuse it alike. Returns the number and the record.
fn every_call(file: &[u8]) -> (u64, u64) {
    let (number, record) = reading(file);
    if number != 0 {
        assert_eq!(judging(file, &[200]), (number, record));
        let (code, details, _) = checking(file, 0, 5, 3);
        assert_eq!((code, details), (number, [record, 0, 0, 0, 0, 0, 0, 0]));
    }
    (number, record)
}

#[test]
fn every_value_of_every_byte() {
    let mut seen = [0; 13];
    for record in 0..3 {
        for byte in 0..8 {
            for value in 0..=255 {
                seen[changed(record, byte, value).0 as usize] += 1;
            }
        }
    }
    assert!(
        seen[0] > 0 && seen[12] > 0 && seen[3..=6].iter().all(|&times| times > 0),
        "{seen:?}"
    );
}

#[test]
fn each_number_where_it_belongs() {
    assert_eq!(changed(0, 0, 1), (0, 0));
    assert_eq!(changed(1, 0, 0), (3, 1));
    assert_eq!(changed(2, 0, 4), (3, 2));
    assert_eq!(changed(0, 1, 64), (4, 0));
    assert_eq!(changed(0, 2, 3), (4, 0));
    assert_eq!(changed(0, 4, 192), (4, 0));
    assert_eq!(changed(1, 1, 16), (4, 1));
    assert_eq!(changed(1, 2, 128), (4, 1));
    assert_eq!(changed(1, 2, FIRST_REMARK - 1), (0, 0));
    assert_eq!(changed(1, 2, FIRST_REMARK), (12, 1));
    assert_eq!(changed(1, 2, 127), (12, 1));
    assert_eq!(changed(1, 3, 16), (4, 1));
    assert_eq!(changed(2, 1, 16), (4, 2));
    assert_eq!(changed(0, 2, 1), (5, 0)); // the second symbol is no longer used
    assert_eq!(changed(0, 5, 1), (5, 0));
    assert_eq!(changed(1, 4, 1), (5, 1));
    assert_eq!(changed(2, 2, 1), (5, 2));
    assert_eq!(every_call(&[STEP, RULE].concat()), (6, 1));
    assert_eq!(every_call(&[RULE, STEP, STEP].concat()), (6, 2));
}

#[test]
fn the_earliest_record_and_then_the_earliest_check() {
    // A file with a wrong length and too many records gives 1; with both 2 and a bad kind it gives 2.
    assert_eq!(every_call(&[9; 8 * 1_297 + 4]), (1, 0));
    assert_eq!(every_call(&[9; 8 * 1_297]), (2, 0));
    // 4, 5 and 6 in one record; 5 and 6; then an earlier 6 before a later 3.
    assert_eq!(every_call(&[STEP, [1, 64, 0, 1, 0, 0, 0, 0]].concat()), (4, 1));
    assert_eq!(every_call(&[STEP, [1, 63, 0, 1, 0, 0, 0, 0]].concat()), (5, 1));
    assert_eq!(every_call(&[STEP, STEP, [9; 8]].concat()), (6, 1));
    // 12 comes after 4 and 5, and before 6.
    assert_eq!(every_call(&[[2, 16, FIRST_REMARK, 0, 0, 0, 0, 0]].concat()), (4, 0));
    assert_eq!(every_call(&[[2, 0, FIRST_REMARK, 0, 1, 0, 0, 0]].concat()), (5, 0));
    assert_eq!(every_call(&[STEP, [2, 0, FIRST_REMARK, 0, 0, 0, 0, 0]].concat()), (12, 1));
}

#[test]
fn lengths_that_are_no_multiple_of_eight() {
    let file = [RULE, STEP, LAST].concat();
    for length in 0..=file.len() {
        let expected = if length % 8 == 0 { (0, 0) } else { (1, 0) };
        assert_eq!(every_call(&file[..length]), expected);
    }
}

#[test]
fn damaged_at_random() {
    let mut numbers = Numbers::new(1);
    let mut seen = [0; 13];
    for round in 0..6_000 {
        let size = Size {
            procedures: 64,
            rules: 1 + round % 40,
            codes: FIRST_REMARK.into(),
            moves: round % 60,
        };
        let mut file = valid_file(&mut numbers, size);
        for _ in 0..1 + numbers.below(2) {
            if file.len() >= 8 {
                damage(&mut numbers, &mut file, 8);
            }
        }
        seen[every_call(&file).0 as usize] += 1;
    }
    assert!(
        seen[0] > 0 && seen[1] > 0 && seen[12] > 0 && seen[3..=6].iter().all(|&times| times > 0),
        "{seen:?}"
    );
}

#[test]
fn bytes_at_random() {
    let mut numbers = Numbers::new(2);
    for round in 0..3_000 {
        let file: Vec<u8> = (0..8 * (round % 5))
            .map(|at| if at % 8 == 0 { 1 + numbers.byte(3) } else { numbers.byte(3) })
            .collect();
        every_call(&file);
    }
}
