//! Sixteen-byte records: moving over and back, and unfolding, byte by byte, beside the plain implementation. Then what an unfolded plan
//! derives and how it is judged, beside derivations of the sixteen-byte plan as it stands.

mod common;

use bolfrega::{
    narrow, narrow_into, procedure, raw, recognize, unfold, widen, FileBuilder, Refusal, CELLS, FILE_BYTES, WIDE_BYTES,
};
use common::rules::Rules;
use common::Conversion::{Narrow, Unfold, Widen};
use common::{checking, converting, judging, reading, recognizing, with_every_room};
use making::{damage, sheet_s, valid_file, valid_wide_file, Numbers, Size};
use plain::FIRST_REMARK;
use std::collections::BTreeSet;

const TINY: Size = Size {
    procedures: 3,
    rules: 5,
    codes: 3,
    moves: 8,
};
const SMALL: Size = Size {
    procedures: 5,
    rules: 12,
    codes: 4,
    moves: 16,
};
const MIDDLE: Size = Size {
    procedures: 20,
    rules: 60,
    codes: 8,
    moves: 60,
};
const LARGE: Size = Size {
    procedures: 62,
    rules: 256,
    codes: FIRST_REMARK as usize,
    moves: 900,
};

/// Lengths of bodies: those of eight-byte records; a long one now and then; all of them.
const OLD: [usize; 3] = [0, 1, 2];
const SOME_LONG: [usize; 12] = [0, 0, 0, 1, 1, 1, 1, 2, 2, 2, 3, 5];
const ALL: [usize; 13] = [0, 1, 2, 3, 4, 5, 6, 7, 8, 9, 10, 11, 12];

/// The numbers that came.
#[derive(Debug, Default)]
struct Seen(BTreeSet<u64>);

impl Seen {
    fn add(&mut self, number: u64) {
        self.0.insert(number);
    }

    /// Insists that each of some numbers came.
    fn insist(&self, numbers: &[u64]) {
        let missing: Vec<_> = numbers.iter().filter(|number| !self.0.contains(number)).collect();
        assert!(missing.is_empty(), "{missing:?} did not come");
    }
}

/// Moves a valid file over: back gives the same bytes, and so does unfolding.
fn over_and_back(file: &[u8]) {
    let (code, _, wide) = with_every_room(Widen, file);
    assert_eq!((code, wide.len()), (raw::CONVERTED, 2 * file.len()));
    for call in [Narrow, Unfold] {
        assert_eq!(with_every_room(call, &wide), (raw::CONVERTED, 0, file.to_vec()));
    }
}

#[test]
fn old_files() {
    let mut numbers = Numbers::new(61);
    for round in 0..600 {
        over_and_back(&valid_file(&mut numbers, [TINY, SMALL, MIDDLE][round % 3]));
    }
    (0..10).for_each(|_| over_and_back(&valid_file(&mut numbers, LARGE)));
    over_and_back(&[]);
}

/// Moves sixteen-byte files back and unfolds them. What moves back moves over to the same bytes.
#[test]
fn wide_files() {
    let mut numbers = Numbers::new(62);
    let (mut back, mut unfolded) = (Seen::default(), Seen::default());
    for round in 0..1_500 {
        let size = [TINY, SMALL, MIDDLE][round % 3];
        let lengths: &[usize] = [&OLD[..], &SOME_LONG, &ALL][round / 3 % 3];
        let file = valid_wide_file(&mut numbers, size, lengths);
        let (code, _, moved) = with_every_room(Narrow, &file);
        if code == raw::CONVERTED {
            assert_eq!(with_every_room(Widen, &moved), (raw::CONVERTED, 0, file.clone()));
        }
        back.add(code);
        let (code, _, result) = with_every_room(Unfold, &file);
        assert!(code != raw::CONVERTED || reading(&result) == (0, 0), "{file:?}");
        unfolded.add(code);
    }
    back.insist(&[17, raw::CONVERTED]);
    unfolded.insist(&[18, raw::CONVERTED]);
}

#[test]
fn damaged_files() {
    let mut numbers = Numbers::new(63);
    let (mut old, mut wide) = (Seen::default(), Seen::default());
    for round in 0..4_000 {
        let size = Size {
            procedures: 64,
            rules: 1 + round % 40,
            codes: FIRST_REMARK.into(),
            moves: round % 60,
        };
        let mut file = valid_file(&mut numbers, size);
        damage(&mut numbers, &mut file, 8);
        old.add(with_every_room(Widen, &file).0);
        let mut file = valid_wide_file(&mut numbers, size, &SOME_LONG);
        damage(&mut numbers, &mut file, 16);
        if numbers.once_in(2) && file.len() >= 16 {
            damage(&mut numbers, &mut file, 16);
        }
        wide.add(with_every_room(Narrow, &file).0);
        wide.add(with_every_room(Unfold, &file).0);
    }
    old.insist(&[1, 3, 4, 5, 6, 12, raw::CONVERTED]);
    wide.insist(&[3, 4, 5, 6, 12, 16, 17, 18, raw::CONVERTED]);
}

/// A file of one form, handed to the calls on the other.
#[test]
fn the_other_form() {
    let mut numbers = Numbers::new(64);
    for round in 0..300 {
        let size = [TINY, SMALL][round % 2];
        let (old, wide) = (valid_file(&mut numbers, size), valid_wide_file(&mut numbers, size, &ALL));
        converting(Widen, &wide, WIDE_BYTES);
        converting(Narrow, &old, FILE_BYTES);
        converting(Unfold, &old, FILE_BYTES);
    }
}

/// The record with these first bytes, the others being 0.
fn record(first: &[u8]) -> [u8; 16] {
    let mut record = [0; 16];
    record[..first.len()].copy_from_slice(first);
    record
}

/// Moves a file back and unfolds it: both refuse it alike, if a file check does. Returns the number and the record.
fn refused(file: &[u8]) -> (u64, u64) {
    let (number, record, _) = with_every_room(Narrow, file);
    let (other, other_record, _) = with_every_room(Unfold, file);
    if number != 17 && number != raw::CONVERTED {
        assert_eq!((other, other_record), (number, record));
    }
    (number, record)
}

#[test]
fn every_value_of_every_byte() {
    let records = [
        record(&[1, 5, 6, 7, 130, 9, 191, 0, 127]),
        record(&[1, 6, 12, 1, 2, 3, 4, 5, 6, 7, 8, 9, 10, 11, 12]),
        record(&[2, 3, 90, 4]),
        record(&[3, 6]),
    ];
    let file = records.concat();
    let mut seen = Seen::default();
    for at in 0..file.len() {
        for value in 0..=255 {
            let mut changed = file.clone();
            changed[at] = value;
            let (number, _, _) = converting(Unfold, &changed, FILE_BYTES);
            assert_eq!(
                converting(Narrow, &changed, 0).0,
                if number == raw::CONVERTED || number == 18 {
                    17
                } else {
                    number
                }
            );
            seen.add(number);
        }
    }
    seen.insist(&[3, 4, 5, 6, 12, 18, raw::CONVERTED]);
}

#[test]
fn each_number_where_it_belongs() {
    let long = record(&[1, 5, 12, 1, 2, 3, 4, 5, 6, 7, 8, 9, 10, 11, 12]);
    let step = record(&[2, 3, 90, 4]);
    assert_eq!(refused(&long), (17, 0));
    // A body of twelve symbols is the longest; a length of 13 is above its range, whatever byte 15 is.
    let with = |at: usize, value: u8| {
        let mut record = long;
        record[at] = value;
        record
    };
    assert_eq!(refused(&with(2, 13)), (4, 0));
    assert_eq!(refused(&with(2, 255)), (4, 0));
    assert_eq!(refused(&with(14, 191)), (17, 0));
    assert_eq!(refused(&with(14, 192)), (4, 0));
    assert_eq!(refused(&with(15, 1)), (5, 0));
    assert_eq!(refused(&with(2, 11)), (5, 0)); // the twelfth symbol is no longer used
    for kind in [record(&[1, 0, 0]), step, record(&[3, 15])] {
        for at in [4, 7, 8, 14, 15] {
            let mut stray = kind;
            stray[at] = 1;
            assert_eq!(refused(&stray), (5, 0), "byte {at}");
        }
    }
    assert_eq!(refused(&record(&[2, 0, FIRST_REMARK, 0])), (12, 0));
    assert_eq!(refused(&[step, record(&[2, 0, FIRST_REMARK, 0])].concat()), (12, 1));
    assert_eq!(refused(&[step, step].concat()), (6, 1));
    // Records that differ in bytes 8 to 14 alone.
    let other = with(14, 11);
    assert_eq!(refused(&[other, long].concat()), (17, 0));
    assert_eq!(refused(&[long, other].concat()), (6, 1));
    // The file is checked before 17 and 18, which come before 10.
    let needy = record(&[1, 63, 3, 1, 2, 3]);
    assert_eq!(refused(&[long, needy, step, record(&[3, 16])].concat()), (4, 3));
    for room in [0, 23, 24, FILE_BYTES] {
        assert_eq!(converting(Narrow, &[long, needy, step].concat(), room).0, 17);
        assert_eq!(converting(Unfold, &[long, needy, step].concat(), room).0, 18);
    }
}

#[test]
fn words_of_the_refusals() {
    let long = record(&[1, 63, 3, 5, 6, 7]);
    let words = |refused: Result<Vec<u8>, Refusal>| refused.unwrap_err().to_string();
    assert_eq!(words(unfold(&long[1..])), "the file's length is no multiple of 16 (16)");
    assert_eq!(words(narrow(&long)), "a body has more than two symbols (17)");
    assert_eq!(words(unfold(&long)), "the unfolding needs procedure 64 or a 257th rule (18)");
    assert_eq!(words(widen(&long)), "record 0: a used byte is above its range (4)");
    let short = record(&[3, 1]);
    assert_eq!(narrow_into(&short, &mut [0; 7]), Err(Refusal::Room));
    assert!(Refusal::Room
        .to_string()
        .ends_with("the output is shorter than the result (10)"));
    for refusal in [Refusal::WideLength, Refusal::LongBody, Refusal::Chains, Refusal::Room] {
        assert_eq!(refusal.record(), None);
    }
}

#[test]
fn lengths_that_are_no_multiple_of_sixteen() {
    let file = [record(&[1, 5, 2, 7, 130]), record(&[2, 3, 90, 4]), record(&[3, 6])].concat();
    for length in 0..=file.len() {
        let expected = if length % 16 == 0 { (raw::CONVERTED, 0) } else { (16, 0) };
        assert_eq!(refused(&file[..length]), expected);
        let (code, ..) = converting(Widen, &file[..length], WIDE_BYTES);
        assert_eq!(code == 1, length % 8 != 0);
    }
}

/// The largest file: 256 rules, 1,024 moves and 16 finishing stages.
fn largest() -> FileBuilder<16> {
    let mut making = FileBuilder::wide();
    for rule in 0..=255 {
        making.rule(rule / 4, &[procedure(63 - rule / 4), rule % 128]);
    }
    for code in 0..64 {
        for from in 0..16 {
            making.step(from, code, (from + code) % 16);
        }
    }
    (0..16).for_each(|stage| {
        making.finishing(stage);
    });
    making
}

#[test]
fn records() {
    let mut file = largest().bytes();
    assert_eq!(file.len(), WIDE_BYTES);
    let (code, _, old) = with_every_room(Narrow, &file);
    assert_eq!((code, old.len()), (raw::CONVERTED, FILE_BYTES));
    assert_eq!(with_every_room(Unfold, &file), (raw::CONVERTED, 0, old.clone()));
    assert_eq!(with_every_room(Widen, &old), (raw::CONVERTED, 0, file.clone()));
    file.extend(record(&[3, 15, 1]));
    assert_eq!(refused(&file), (2, 0));
    file.push(0);
    assert_eq!(refused(&file), (16, 0));
    let nothing = [0; 16 * 1_297];
    assert_eq!(refused(&nothing), (2, 0));
    assert_eq!(refused(&nothing[16..]), (3, 0));
    assert_eq!(with_every_room(Widen, &nothing[..8 * 1_297]).0, 2);
    assert_eq!(with_every_room(Widen, &nothing[..8 * 1_297 + 1]).0, 1);
}

#[test]
fn a_rule_or_a_move_too_many() {
    let mut rules = FileBuilder::wide();
    (0..=255).for_each(|rule| {
        rules.rule(rule / 4, &[rule % 128]);
    });
    assert_eq!(refused(&rules.bytes()), (raw::CONVERTED, 0));
    rules.step(0, 0, 0).rule(63, &[191; 12]);
    assert_eq!(refused(&rules.bytes()), (7, 256));
    let mut moves = FileBuilder::wide();
    (0..1_024u16).for_each(|number| {
        moves.step((number % 16) as u8, (number / 16) as u8, 3);
    });
    assert_eq!(refused(&moves.bytes()), (raw::CONVERTED, 0));
    assert_eq!(refused(&moves.step(15, 119, 3).bytes()), (7, 1_024));
}

/// Each highest procedure in use, as a head, as a symbol, and as a symbol of the long body itself; with a body of each length.
#[test]
fn the_last_chain_procedure() {
    for highest in 0..64 {
        for length in 2..=12 {
            let needed = length as u8 - 2;
            let expected = if highest + needed > 63 { 18 } else { raw::CONVERTED };
            let as_head = FileBuilder::wide().rule(0, &vec![7; length]).rule(highest, &[]).bytes();
            let as_symbol = FileBuilder::wide()
                .rule(0, &vec![7; length])
                .rule(0, &[procedure(highest)])
                .bytes();
            let mut own = vec![7; length];
            own[length - 1] = procedure(highest);
            let in_itself = FileBuilder::wide().rule(0, &own).bytes();
            for file in [as_head, as_symbol, in_itself] {
                // A body of two needs no chain procedure, also where procedure 63 is in use.
                assert_eq!(with_every_room(Unfold, &file).0, expected, "{highest} {length}");
            }
        }
    }
    // Several bodies together: six of twelve symbols and one of five take all 63 above procedure 0.
    let mut making = FileBuilder::wide();
    (0..6).for_each(|code| {
        making.rule(0, &[code; 12]);
    });
    let file = making.rule(0, &[1; 5]).bytes();
    let (code, _, unfolded) = with_every_room(Unfold, &file);
    assert_eq!((code, unfolded.len()), (raw::CONVERTED, 8 * 70));
    assert_eq!(unfolded[unfolded.len() - 8..], [1, 63, 2, 5, 5, 0, 0, 0]);
    assert_eq!(with_every_room(Unfold, &making.rule(0, &[2; 3]).bytes()).0, 18);
}

/// Up to 256 rules after unfolding.
#[test]
fn the_last_rule() {
    for length in 3..=12 {
        for count in 245..=256 {
            let mut making = FileBuilder::wide();
            (0..count - 1).for_each(|rule| {
                making.rule(0, &[(rule / 16) as u8, (rule % 16) as u8]);
            });
            let file = making.rule(0, &vec![7; length]).bytes();
            assert_eq!(making.count(1), count);
            let expected = if count + length - 2 > 256 { 18 } else { raw::CONVERTED };
            assert_eq!(with_every_room(Unfold, &file).0, expected, "{count} {length}");
        }
    }
}

/// Chain procedures in file order and left to right above the highest in use; equal rests apart; rules in file order.
#[test]
fn unfolded_by_hand() {
    let wide = [
        record(&[1, 0, 2, 9, 9]),
        record(&[1, 0, 3, 5, 6, 7]),
        record(&[1, 0, 4, 1, 2, 3, 4]),
        record(&[1, 0, 4, 1, 2, 3, 5]),
        record(&[1, 7, 4, 148, 2, 3, 4]),
        record(&[2, 0, 119, 15]),
        record(&[3, 15]),
    ]
    .concat();
    let expected = [
        [1, 0, 2, 1, 150, 0, 0, 0],
        [1, 0, 2, 1, 152, 0, 0, 0],
        [1, 0, 2, 5, 149, 0, 0, 0],
        [1, 0, 2, 9, 9, 0, 0, 0],
        [1, 7, 2, 148, 154, 0, 0, 0],
        [1, 21, 2, 6, 7, 0, 0, 0],
        [1, 22, 2, 2, 151, 0, 0, 0],
        [1, 23, 2, 3, 4, 0, 0, 0],
        [1, 24, 2, 2, 153, 0, 0, 0],
        [1, 25, 2, 3, 5, 0, 0, 0],
        [1, 26, 2, 2, 155, 0, 0, 0],
        [1, 27, 2, 3, 4, 0, 0, 0],
        [2, 0, 119, 15, 0, 0, 0, 0],
        [3, 15, 0, 0, 0, 0, 0, 0],
    ]
    .concat();
    assert_eq!(with_every_room(Unfold, &wide), (raw::CONVERTED, 0, expected));
}

/// The samples are the plan in which tile rows and index rows come in turn, five of each first, with a remark in each turn after that.
#[test]
fn samples() {
    let mut making = FileBuilder::wide();
    making
        .rule(0, &[1, 2, 1, 2, 1, 2, 1, 2, 1, 2, procedure(1), 3])
        .rule(1, &[])
        .rule(1, &[1, FIRST_REMARK, 2, procedure(1)]);
    let sheet = with_every_room(Widen, &sheet_s().bytes()).2;
    let file = |making: &FileBuilder<16>| [making.bytes(), sheet.clone()].concat();
    let long = file(&making);
    assert_eq!(long, include_bytes!("../../samples/long-bodies.wide"));
    assert_eq!(long[..long.len() - 8], *include_bytes!("../../samples/torn.wide"));
    let unfolded = with_every_room(Unfold, &long).2;
    assert_eq!(unfolded, include_bytes!("../../samples/long-bodies.plan"));
    let broken = file(making.rule(1, &[1, FIRST_REMARK + 1, procedure(1)]));
    assert_eq!(broken, include_bytes!("../../samples/long-broken.wide"));
    let unfolded = with_every_room(Unfold, &broken).2;
    assert_eq!(unfolded, include_bytes!("../../samples/long-broken.plan"));
}

/// Files whose chain procedures suffice, with their unfolded ones.
fn unfolding(seed: u64, rounds: usize, size: Size) -> impl Iterator<Item = (Numbers, Rules, Vec<u8>)> {
    let mut numbers = Numbers::new(seed);
    (0..rounds).filter_map(move |_| {
        let file = valid_wide_file(&mut numbers, size, &[0, 1, 1, 2, 2, 3, 4, 5, 8]);
        let (code, _, unfolded) = converting(Unfold, &file, FILE_BYTES);
        let drawing = Numbers::new(numbers.below(1 << 40) as u64);
        (code == raw::CONVERTED).then(|| (drawing, Rules::of(&file, 16), unfolded))
    })
}

/// Each original procedure derives the same stretches after unfolding.
#[test]
fn the_same_runs() {
    let (mut looked, mut derived) = (0, 0);
    for (mut numbers, plan, unfolded) in unfolding(65, 1_200, TINY).chain(unfolding(66, 600, SMALL)) {
        let original = (1u64 << plan.free()) - 1;
        let drawn = plan.draw(&mut numbers, 0);
        let any: Vec<u8> = (0..numbers.below(7)).map(|_| numbers.byte(4)).collect();
        for run in drawn.into_iter().chain([any]).filter(|run| run.len() <= 16) {
            let (code, ..) = recognizing(&unfolded, &run, CELLS);
            let found = recognize(&unfolded, &run).unwrap();
            for (begin, ends) in plan.derived(&run).iter().enumerate() {
                for (end, &expected) in ends.iter().enumerate() {
                    let procedures = found.procedures(begin..end) & original;
                    assert_eq!(procedures, expected, "{run:?} from {begin} to {end} by {:?}", plan.rules);
                }
            }
            looked += 1;
            derived += usize::from(code == raw::DERIVED);
        }
    }
    assert!(
        looked > 1_000 && derived > 300 && looked - derived > 300,
        "{derived} of {looked}"
    );
}

/// The verdict on an unfolded file is one on the sixteen-byte plan: no run of it is turned away where the check holds, the shown run is one of
/// it where the check is broken, and it has none where the check says empty.
#[test]
fn verdicts() {
    let (mut accepted, mut shown, mut empty) = (0, 0, 0);
    for (mut numbers, plan, unfolded) in unfolding(67, 2_500, TINY).chain(unfolding(68, 1_200, SMALL)) {
        let (code, details, buffer) = checking(&unfolded, 1_024, 30_000, 300);
        let some_run = plan.heights()[0].is_some();
        match code {
            raw::HOLDS => {
                assert!(some_run, "{:?}", plan.rules);
                for _ in 0..8 {
                    if let Some(run) = plan.draw(&mut numbers, 0) {
                        assert_eq!(judging(&unfolded, &run), (raw::ACCEPTED, 0), "{:?}", plan.rules);
                        accepted += 1;
                    }
                }
            }
            raw::BROKEN if details[7] == 0 && details[6] <= 64 => {
                let run = &buffer[..details[6] as usize];
                assert!(plan.derives(0, run), "{run:?} by {:?}", plan.rules);
                assert_eq!(judging(&unfolded, run), (raw::TURNED_AWAY, 0));
                shown += 1;
            }
            raw::EMPTY => {
                assert!(!some_run, "{:?}", plan.rules);
                empty += 1;
            }
            _ => {}
        }
    }
    assert!(accepted > 1_000 && shown > 500 && empty > 200, "{accepted} {shown} {empty}");
}
