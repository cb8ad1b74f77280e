//! Gaps and doubles of a sheet, byte by byte, beside the plain implementation.

mod common;

use bolfrega::{raw, FileBuilder, LIST_BYTES};
use common::listing;
use making::{sheet_s, valid_file, Numbers, Size};

const SMALL: Size = Size {
    procedures: 2,
    rules: 2,
    codes: 3,
    moves: 6,
};
const MIDDLE: Size = Size {
    procedures: 2,
    rules: 4,
    codes: 12,
    moves: 60,
};
const LARGE: Size = Size {
    procedures: 64,
    rules: 256,
    codes: 120,
    moves: 900,
};

/// Lists `rounds` sheets. Returns how many lists were empty and how many were not.
fn many(seed: u64, size: Size, rounds: usize) -> [usize; 2] {
    let mut numbers = Numbers::new(seed);
    let mut seen = [0; 2];
    for _ in 0..rounds {
        let file = valid_file(&mut numbers, size);
        let (code, _, entries, _) = listing(&file, LIST_BYTES + numbers.below(4));
        assert_eq!(code, raw::LISTED);
        if entries == 0 {
            one_path(&mut numbers, &file);
        }
        seen[usize::from(entries > 0)] += 1;
    }
    seen
}

/// On a sheet with an empty list, a run of codes used in its moves has one path from each stage taken.
fn one_path(numbers: &mut Numbers, file: &[u8]) {
    let records = || file.chunks_exact(8);
    let moves: Vec<&[u8]> = records().filter(|record| record[0] == 2).collect();
    if moves.is_empty() {
        return;
    }
    let mut stages = vec![0];
    stages.extend(moves.iter().flat_map(|record| [record[1], record[3]]));
    stages.extend(records().filter(|record| record[0] == 3).map(|record| record[1]));
    let run: Vec<u8> = (0..numbers.below(20)).map(|_| numbers.pick(&moves)[2]).collect();
    for start in stages {
        let mut ends = vec![start];
        for code in &run {
            let after = |stage: u8| moves.iter().filter(move |record| (record[1], record[2]) == (stage, *code));
            ends = ends.iter().flat_map(|&stage| after(stage)).map(|record| record[3]).collect();
            assert_eq!(ends.len(), 1, "{run:?} from {start} by {file:?}");
        }
    }
}

#[test]
fn small_sheets() {
    let seen = many(51, SMALL, 6_000);
    assert!(seen.iter().all(|&times| times > 300), "{seen:?}");
}

#[test]
fn middle_sheets() {
    let seen = many(52, MIDDLE, 2_000);
    assert!(seen.iter().all(|&times| times > 100), "{seen:?}");
}

#[test]
fn large_sheets() {
    let seen = many(53, LARGE, 300);
    assert!(seen[1] > 100, "{seen:?}");
}

/// Two moves from stage 0 on each code, and all stages are finishing: every pair is listed.
#[test]
fn the_longest_list() {
    let mut making = FileBuilder::new();
    for code in 0..120 {
        making.step(0, code, 0).step(0, code, 15);
    }
    (0..16).for_each(|stage| {
        making.finishing(stage);
    });
    let (code, _, entries, list) = listing(&making.bytes(), LIST_BYTES);
    assert_eq!((code, entries, &list[5_757..]), (raw::LISTED, 1_920, &[15, 119, 0][..]));
}

/// All sixteen moves of a stage on one code are counted.
#[test]
fn sixteen_moves() {
    let mut making = FileBuilder::new();
    (0..16).for_each(|to| {
        making.step(3, 119, to);
    });
    let (_, _, entries, list) = listing(&making.bytes(), LIST_BYTES);
    assert_eq!((entries, &list[9..12]), (16, &[3, 119, 16][..]));
}

/// The file first, then 15, which is asked for whatever the list is; and a buffer that is left as it was.
#[test]
fn refusals() {
    let file = sheet_s().bytes();
    for room in [0, 1, 5_759] {
        assert_eq!(listing(&file[..7], room).0, 1);
        assert_eq!(listing(&[9, 0, 0, 0, 0, 0, 0, 0], room).0, 3);
        assert_eq!(listing(&file, room).0, 15);
        assert_eq!(listing(&[], room).0, 15);
    }
    for room in [5_760, 5_761, 20_000] {
        assert_eq!(listing(&file, room).2, 6);
    }
    assert_eq!(listing(&[2, 0, 120, 0, 0, 0, 0, 0], 0).0, 12);
}
