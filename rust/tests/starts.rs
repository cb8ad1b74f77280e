//! Several starting procedures: checks and unfoldings from sets of procedures, beside the plain implementation, beside the checks of each member
//! alone, and beside derivations of the plan as it stands.

mod common;

use bolfrega::{procedure, raw, FileBuilder, Starts};
use common::rules::Rules;
use common::Conversion::UnfoldFrom;
use common::{checking_from, judging, reading, with_every_room};
use making::{damage, sheet_s, valid_file, valid_wide_file, Numbers, Size};
use plain::FIRST_REMARK;
use std::collections::BTreeSet;

const TINY: Size = Size {
    procedures: 3,
    rules: 6,
    codes: 3,
    moves: 8,
};
const SMALL: Size = Size {
    procedures: 5,
    rules: 12,
    codes: 4,
    moves: 16,
};
const MIDDLE: Size = Size {
    procedures: 20,
    rules: 60,
    codes: 8,
    moves: 60,
};
const LARGE: Size = Size {
    procedures: 64,
    rules: 256,
    codes: FIRST_REMARK as usize,
    moves: 1_024,
};

const ALL: Starts = Starts::from_bits(u64::MAX);

/// Lengths of bodies: a long one now and then.
const SOME_LONG: [usize; 12] = [0, 0, 0, 1, 1, 1, 1, 2, 2, 2, 3, 5];

const HOLDS: u64 = raw::HOLDS;
const BROKEN: u64 = raw::BROKEN;
const EMPTY: u64 = raw::EMPTY;

fn set(procedures: &[u8]) -> Starts {
    Starts::of(procedures.iter().copied()).unwrap()
}

/// A set at random, for a file of this size: none, all 64, one, some of the file's procedures, and others that may have no rule.
fn draw(numbers: &mut Numbers, size: Size) -> Starts {
    let any = |numbers: &mut Numbers| Starts::from_bits((numbers.below(1 << 32) as u64) << 32 | numbers.below(1 << 32) as u64);
    let own = u64::MAX >> (64 - size.procedures);
    match numbers.below(10) {
        0 => Starts::NONE,
        1 => ALL,
        2 => any(numbers),
        3 => set(&[numbers.byte(64)]),
        4 => Starts::INITIAL,
        5 | 6 => set(&[numbers.byte(size.procedures)]),
        _ => Starts::from_bits(any(numbers).bits() & own),
    }
}

/// Checks `rounds` files of a size from sets at random. Returns how often each verdict came: holds, broken, full, spent, empty.
fn many(seed: u64, size: Size, rounds: usize) -> [usize; 5] {
    let mut numbers = Numbers::new(seed);
    let (mut seen, mut without_member, mut told) = ([0; 5], [0; 5], BTreeSet::new());
    for _ in 0..rounds {
        let file = valid_file(&mut numbers, size);
        let starts = draw(&mut numbers, size);
        let rows = numbers.pick(&[1, 2, 3, 5, 20, 100, 1_024, 4_096]);
        let budget = numbers.pick(&[0, 1, 2, 10, 100, 1_000, 5_000, 20_000]);
        let room = numbers.pick(&[0, 1, 2, 5, 40, 4_096]);
        let (code, details, _) = checking_from(&file, starts, rows, budget, room);
        seen[code as usize - raw::HOLDS as usize] += 1;
        if code == BROKEN {
            assert!(starts.contains(details[8] as u8), "{starts:?}: {file:?}");
            told.insert(details[8]);
        } else {
            assert_eq!(details[8], 0);
        }
        if starts == Starts::NONE {
            without_member[code as usize - raw::HOLDS as usize] += 1;
        }
    }
    let [_, broken, _, _, empty] = without_member;
    assert_eq!((broken, empty), (0, 0), "with no member it is never broken or empty");
    assert!(told.len() > 2, "{told:?}");
    seen
}

#[test]
fn tiny_files() {
    let seen = many(81, TINY, 6_000);
    assert!(seen.iter().all(|&times| times > 200), "{seen:?}");
}

#[test]
fn small_files() {
    let seen = many(82, SMALL, 4_000);
    assert!(seen.iter().all(|&times| times > 100), "{seen:?}");
}

#[test]
fn middle_files() {
    let seen = many(83, MIDDLE, 2_000);
    assert!(seen.iter().all(|&times| times > 20), "{seen:?}");
}

#[test]
fn large_files() {
    let seen = many(84, LARGE, 150);
    assert!(seen[1] > 5 && seen[2] > 5 && seen[3] > 5, "{seen:?}");
}

#[test]
fn damaged_files() {
    let mut numbers = Numbers::new(85);
    let (mut checked, mut unfolded) = (BTreeSet::new(), BTreeSet::new());
    for round in 0..3_000 {
        let size = Size {
            procedures: 64,
            rules: 1 + round % 40,
            codes: FIRST_REMARK.into(),
            moves: round % 60,
        };
        let starts = draw(&mut numbers, size);
        let mut file = valid_file(&mut numbers, size);
        damage(&mut numbers, &mut file, 8);
        let rows = numbers.pick(&[0, 1, 1_024, 4_096, 4_097]);
        let budget = numbers.pick(&[2, 1_000]);
        let (code, details, _) = checking_from(&file, starts, rows, budget, 40);
        let (refused, record) = reading(&file);
        if refused != 0 {
            assert_eq!((code, details), (refused, [record, 0, 0, 0, 0, 0, 0, 0, 0]));
        } else if rows == 0 || rows > 4_096 {
            assert_eq!((code, details), (8, [0; 9]));
        }
        checked.insert(code);
        let mut file = valid_wide_file(&mut numbers, size, &SOME_LONG);
        damage(&mut numbers, &mut file, 16);
        unfolded.insert(with_every_room(UnfoldFrom(starts), &file).0);
    }
    for number in [
        1,
        3,
        4,
        5,
        6,
        8,
        12,
        raw::HOLDS,
        raw::BROKEN,
        raw::FULL,
        raw::SPENT,
        raw::EMPTY,
    ] {
        assert!(checked.contains(&number), "{number} did not come: {checked:?}");
    }
    for number in [16, 3, 4, 5, 6, 12, 18, raw::CONVERTED] {
        assert!(unfolded.contains(&number), "{number} did not come: {unfolded:?}");
    }
}

/// For the set of procedure 0 alone each number and byte is that of the calls without a set, of which the plain implementation is no part.
#[test]
fn procedure_0_alone() {
    let mut numbers = Numbers::new(86);
    let mut seen = [BTreeSet::new(), BTreeSet::new()];
    for round in 0..3_000 {
        let size = [TINY, SMALL, MIDDLE][round % 3];
        let lengths: &[usize] = if round % 2 == 0 { &SOME_LONG } else { &[1, 2, 7, 12] };
        let (mut file, mut wide) = (valid_file(&mut numbers, size), valid_wide_file(&mut numbers, size, lengths));
        if numbers.once_in(4) && !file.is_empty() && !wide.is_empty() {
            damage(&mut numbers, &mut file, 8);
            damage(&mut numbers, &mut wide, 16);
        }
        let rows = numbers.pick(&[0, 1, 3, 20, 1_024]);
        let budget = numbers.pick(&[0, 10, 100, 5_000]);
        let room = numbers.pick(&[0, 1, 5, 400]);
        let (mut eight, mut nine) = ([7; 8], [7; 9]);
        let (mut one, mut other) = ([9; 400], [9; 400]);
        let code = raw::check(&file, rows, budget, &mut eight, &mut one[..room]);
        let code_from = raw::check_from(&file, 1, rows, budget, &mut nine, &mut other[..room]);
        assert_eq!((code, &eight[..], 0), (code_from, &nine[..8], nine[8]), "{file:?}");
        assert!(one == other, "{file:?}");
        seen[0].insert(code);

        let (mut one, mut other) = ([9; 2_000], [9; 2_000]);
        let room = numbers.pick(&[0, 100, 2_000]);
        let (mut record, mut length, mut record_from, mut length_from) = (7, 7, 7, 7);
        let code = raw::unfold(&wide, &mut record, &mut length, &mut one[..room]);
        let code_from = raw::unfold_from(&wide, 1, &mut record_from, &mut length_from, &mut other[..room]);
        assert_eq!((code, record, length), (code_from, record_from, length_from), "{wide:?}");
        assert!(one == other, "{wide:?}");
        seen[1].insert(code);
    }
    assert!((raw::HOLDS..=raw::EMPTY).all(|code| seen[0].contains(&code)), "{:?}", seen[0]);
    assert!(
        [10, 18, raw::CONVERTED].iter().all(|code| seen[1].contains(code)),
        "{:?}",
        seen[1]
    );
}

/// Every run of at most this many steps over some codes and a remark.
fn short_runs(codes: usize, most: usize) -> Vec<Vec<u8>> {
    let letters: Vec<u8> = (0..codes as u8).chain([FIRST_REMARK]).collect();
    let mut runs = vec![vec![]];
    let mut last = runs.clone();
    for _ in 0..most {
        let longer = |run: &Vec<u8>| letters.iter().map(|&code| [&run[..], &[code]].concat()).collect::<Vec<_>>();
        last = last.iter().flat_map(longer).collect();
        runs.extend(last.clone());
    }
    runs
}

/// What an answer says of the runs of the members, by derivations of the rules as they stand; how often each of the three came.
#[derive(Debug, Default)]
struct Truth {
    holds: usize,
    broken: usize,
    empty: usize,
    /// The runs of members that were judged, and the shown runs of others than procedure 0.
    judged: usize,
    of_others: usize,
}

impl Truth {
    /// Looks at the answer of a check from `starts` of `file`, which has the rules or is what they unfold to.
    fn look(&mut self, numbers: &mut Numbers, rules: &Rules, file: &[u8], starts: Starts, short: &[Vec<u8>]) {
        let (code, details, buffer) = checking_from(file, starts, 1_024, 30_000, 300);
        let what = || format!("{starts:?} of {:?}", rules.rules);
        let heights = rules.heights();
        let all_have_runs = starts.procedures().all(|member| heights[usize::from(member)].is_some());
        match code {
            HOLDS => {
                assert!(all_have_runs, "{}", what());
                self.holds += 1;
            }
            BROKEN => {
                let (told, length) = (details[8] as u8, details[6] as usize);
                assert!(starts.contains(told), "{}", what());
                self.broken += 1;
                if details[7] == 0 && length <= 64 {
                    let run = &buffer[..length];
                    assert!(rules.derives(told, run), "{told} and {run:?}, {}", what());
                    assert_eq!(judging(file, run), (raw::TURNED_AWAY, 0), "{run:?}, {}", what());
                    self.of_others += usize::from(told != 0);
                }
                return;
            }
            EMPTY => {
                assert!(!all_have_runs, "{}", what());
                self.empty += 1;
            }
            _ => return,
        }
        // No run of any member is turned away.
        let four_times = starts.procedures().flat_map(|member| [member; 4]);
        let drawn: Vec<Vec<u8>> = four_times.filter_map(|member| rules.draw(numbers, member)).collect();
        let members = |run: &[u8]| rules.derived(run)[0][run.len()] & starts.bits();
        for run in short.iter().filter(|run| members(run) != 0).chain(&drawn) {
            assert_eq!(judging(file, run), (raw::ACCEPTED, 0), "{run:?}, {}", what());
            self.judged += 1;
        }
    }
}

#[test]
fn verdicts() {
    let mut numbers = Numbers::new(87);
    let (mut truth, short) = (Truth::default(), short_runs(TINY.codes, 3));
    for _ in 0..3_000 {
        let file = valid_file(&mut numbers, TINY);
        let starts = draw(&mut numbers, TINY);
        truth.look(&mut numbers, &Rules::of(&file, 8), &file, starts, &short);
    }
    for _ in 0..1_500 {
        let file = valid_file(&mut numbers, SMALL);
        let starts = draw(&mut numbers, SMALL);
        truth.look(&mut numbers, &Rules::of(&file, 8), &file, starts, &[]);
    }
    let enough = truth.holds > 400 && truth.broken > 800 && truth.empty > 400;
    assert!(enough && truth.judged > 4_000 && truth.of_others > 400, "{truth:?}");
}

/// A set is broken where some member alone is, else empty where some member alone is, and holds where each does; and where it is not broken,
/// the counts are those of the empty set.
#[test]
fn beside_each_member_alone() {
    let mut numbers = Numbers::new(88);
    let mut seen = [0; 5];
    let mut several = [0; 5];
    for round in 0..1_500 {
        let size = [TINY, SMALL][round % 2];
        let file = valid_file(&mut numbers, size);
        let starts = draw(&mut numbers, size);
        let (code, details, _) = checking_from(&file, starts, 1_024, 30_000, 40);
        let (without, counts, _) = checking_from(&file, Starts::NONE, 1_024, 30_000, 40);
        assert!(![BROKEN, EMPTY].contains(&without), "{file:?}");
        if code == BROKEN {
            assert!((1..=3).all(|at| details[at] <= counts[at]), "{starts:?}: {file:?}");
        } else {
            assert_eq!(details[1..4], counts[1..4], "{starts:?}: {file:?}");
        }
        let alone: Vec<u64> = starts
            .procedures()
            .map(|member| checking_from(&file, set(&[member]), 1_024, 30_000, 40).0)
            .collect();
        if without == HOLDS {
            let expected = if alone.contains(&BROKEN) {
                BROKEN
            } else if alone.contains(&EMPTY) {
                EMPTY
            } else {
                HOLDS
            };
            assert_eq!(code, expected, "{starts:?}: {file:?}");
            seen[code as usize - raw::HOLDS as usize] += 1;
            several[code as usize - raw::HOLDS as usize] +=
                usize::from(alone.len() > 1 && alone.iter().any(|&other| other != code));
        }
    }
    let [holds, broken, _, _, empty] = seen;
    assert!(holds > 200 && broken > 200 && empty > 100, "{seen:?}");
    // Sets whose members alone have different answers.
    assert!(several[1] > 50 && several[4] > 50, "{several:?}");
}

/// Around the joins and the used rows of each answer: one less, as many, one more.
#[test]
fn around_the_answer() {
    let mut numbers = Numbers::new(89);
    for round in 0..500 {
        let size = [TINY, SMALL][round % 2];
        let file = valid_file(&mut numbers, size);
        let starts = draw(&mut numbers, size);
        let (code, details, _) = checking_from(&file, starts, 1_024, 30_000, 40);
        let [_, joins, used, ..] = details;
        for budget in [0, 1, joins.saturating_sub(1), joins, joins + 1, u64::MAX] {
            // A larger budget is for answers that are firm: another check might never end in time.
            if budget <= joins || [HOLDS, BROKEN, EMPTY].contains(&code) {
                checking_from(&file, starts, 1_024, budget, 40);
            }
        }
        for rows in [1, used.saturating_sub(1), used, used + 1, 4_096] {
            if rows > 0 {
                checking_from(&file, starts, rows as usize, 30_000, 40);
            }
        }
    }
}

/// Procedures 0 to 2 are plan A with sheet S; route 3 may leave an index row out, and route 4 never ends.
fn routes() -> FileBuilder {
    let mut making = sheet_s();
    making
        .rule(0, &[procedure(1), 3])
        .rule(1, &[])
        .rule(1, &[1, procedure(2)])
        .rule(2, &[2, procedure(1)])
        .rule(3, &[1, 3])
        .rule(3, &[procedure(1), 3])
        .rule(4, &[1, procedure(5)])
        .rule(5, &[2, procedure(4)]);
    making
}

#[test]
fn the_sample() {
    let file = routes().bytes();
    assert_eq!(file, include_bytes!("../../samples/routes.plan"));
    let told = |procedures: &[u8]| {
        let (code, details, buffer) = checking_from(&file, set(procedures), 1_024, 1_000_000, 16);
        (code, details[8], buffer[..details[6] as usize].to_vec())
    };
    assert_eq!(told(&[0]), (HOLDS, 0, vec![]));
    assert_eq!(told(&[3]), (BROKEN, 3, vec![1, 3]));
    assert_eq!(told(&[0, 3, 4]), (BROKEN, 3, vec![1, 3]));
    assert_eq!(told(&[4]), (EMPTY, 0, vec![]));
    assert_eq!(told(&[0, 4]), (EMPTY, 0, vec![]));
    assert_eq!(told(&[]), (HOLDS, 0, vec![]));
    // Procedure 1 gives nothing, in pass 1 and before route 3, and stage 0 is not finishing.
    assert_eq!(told(&[0, 1, 3]), (BROKEN, 1, vec![]));
    // 63 has no rule.
    assert_eq!(told(&[0, 63]), (EMPTY, 0, vec![]));
}

/// Each procedure by itself: with the rule that breaks it, that one alone breaks its set, and no other.
#[test]
fn every_procedure() {
    for head in 0..64 {
        let file = FileBuilder::new().rule(head, &[5]).bytes();
        for member in 0..64 {
            let (code, details, _) = checking_from(&file, set(&[member]), 4, 10, 4);
            let expected = if member == head {
                (BROKEN, u64::from(head))
            } else {
                (EMPTY, 0)
            };
            assert_eq!((code, details[8]), expected);
        }
        let others = Starts::from_bits(!(1 << head));
        assert_eq!(checking_from(&file, others, 4, 10, 4).0, EMPTY);
        assert_eq!(checking_from(&file, ALL, 4, 10, 4).1[8], u64::from(head));
        assert_eq!(checking_from(&file, Starts::NONE, 4, 10, 4).0, HOLDS);
    }
}

/// All 64 procedures have a run, and none is turned away; without the rule of one the check is empty.
#[test]
fn all_of_them() {
    let mut making = FileBuilder::new();
    (0..64).for_each(|head| {
        making.rule(head, &[]);
    });
    let file = making.finishing(0).bytes();
    assert_eq!(checking_from(&file, ALL, 1_024, 1_000, 4).0, HOLDS);
    for missing in 0..64 {
        let mut short = file.clone();
        short.drain(8 * missing..8 * missing + 8);
        assert_eq!(checking_from(&short, ALL, 1_024, 1_000, 4).0, EMPTY);
        let others = Starts::from_bits(!(1 << missing));
        assert_eq!(checking_from(&short, others, 1_024, 1_000, 4).0, HOLDS);
    }
}

/// Which procedures of an unfolded file are chain procedures: those that the wide plan does not use.
fn chains(rules: &Rules, unfolded: &[u8]) -> Vec<u8> {
    let (before, after) = (rules.in_use(), Rules::of(unfolded, 8).in_use());
    after.difference(&before).copied().collect()
}

/// Chain procedures come one after the other, from one above all that is in use and above every member; and what the check of the unfolded file
/// says from the same set is so of the wide plan.
#[test]
fn unfolding_with_members() {
    let mut numbers = Numbers::new(90);
    let mut truth = Truth::default();
    let (mut raised, mut refused) = (0, 0);
    for round in 0..2_400 {
        let size = [TINY, SMALL, MIDDLE][round % 3];
        let file = valid_wide_file(&mut numbers, size, &[0, 1, 1, 2, 2, 3, 4, 5, 8]);
        let starts = draw(&mut numbers, size);
        let rules = Rules::of(&file, 16);
        let needed: usize = rules.rules.iter().map(|(_, body)| body.len().saturating_sub(2)).sum();
        let above = starts.procedures().last().map_or(0, |highest| highest + 1);
        let first = rules.free().max(above);
        let (code, _, unfolded) = with_every_room(UnfoldFrom(starts), &file);
        let fits = usize::from(first) + needed <= 64;
        assert_eq!(code, if fits { raw::CONVERTED } else { 18 }, "{starts:?}: {file:?}");
        if !fits {
            refused += 1;
            continue;
        }
        let expected: Vec<u8> = (first..first + needed as u8).collect();
        assert_eq!(chains(&rules, &unfolded), expected, "{starts:?}: {file:?}");
        assert!(expected.iter().all(|&chain| !starts.contains(chain)));
        raised += usize::from(needed > 0 && above > rules.free());
        if round % 3 < 2 {
            truth.look(&mut numbers, &rules, &unfolded, starts, &[]);
        }
    }
    assert!(raised > 20 && refused > 200, "{raised} {refused}");
    let enough = truth.holds > 100 && truth.broken > 200 && truth.empty > 50;
    assert!(enough && truth.judged > 200 && truth.of_others > 100, "{truth:?}");
}

/// A member without rules is no chain procedure, and so it has no run.
#[test]
fn members_without_rules() {
    let mut making = FileBuilder::wide();
    let wide = making.rule(0, &[5, 6, 7]).bytes();
    for (members, chain) in [
        (&[][..], 1),
        (&[0], 1),
        (&[1], 2),
        (&[0, 1], 2),
        (&[0, 40], 41),
        (&[3, 62], 63),
    ] {
        let expected = FileBuilder::new()
            .rule(0, &[5, procedure(chain)])
            .rule(chain, &[6, 7])
            .bytes();
        assert_eq!(
            with_every_room(UnfoldFrom(set(members)), &wide),
            (raw::CONVERTED, 0, expected.clone()),
            "{members:?}"
        );
        let (code, details, _) = checking_from(&expected, set(members), 16, 100, 16);
        let expected = match members {
            [] => (HOLDS, 0),
            [0, ..] => (BROKEN, 0),
            _ => (EMPTY, 0),
        };
        assert_eq!((code, details[8]), expected, "{members:?}");
    }
    assert_eq!(with_every_room(UnfoldFrom(set(&[63])), &wide).0, 18);
    assert_eq!(with_every_room(UnfoldFrom(ALL), &wide).0, 18);
    // Where no chain procedure is needed, any set will do.
    let short = FileBuilder::wide().rule(0, &[5, 6]).bytes();
    assert_eq!(
        with_every_room(UnfoldFrom(ALL), &short),
        (raw::CONVERTED, 0, vec![1, 0, 2, 5, 6, 0, 0, 0])
    );
    assert_eq!(with_every_room(UnfoldFrom(ALL), &[]), (raw::CONVERTED, 0, vec![]));
}

/// Each highest member with a body of each length.
#[test]
fn the_last_chain_procedure() {
    for highest in 0..64 {
        for length in 2..=12 {
            let file = FileBuilder::wide().rule(0, &vec![7; length]).bytes();
            let expected = if usize::from(highest) + length - 2 > 63 {
                18
            } else {
                raw::CONVERTED
            };
            let whole = Starts::from_bits(u64::MAX >> (63 - highest));
            for starts in [set(&[highest]), set(&[0, highest]), whole] {
                assert_eq!(with_every_room(UnfoldFrom(starts), &file).0, expected, "{highest} {length}");
            }
        }
    }
}

#[test]
fn sets() {
    for procedure in 0..=255 {
        let alone = Starts::of([procedure]);
        assert_eq!(alone.is_some(), procedure < 64);
        assert_eq!(Starts::NONE.with(procedure), alone);
        assert_eq!(alone.map(Starts::bits), 1u64.checked_shl(procedure.into()));
        assert_eq!(ALL.contains(procedure), procedure < 64);
        assert!(!Starts::NONE.contains(procedure));
        assert_eq!(Starts::INITIAL.contains(procedure), procedure == 0);
    }
    assert_eq!(Starts::of([0]), Some(Starts::INITIAL));
    assert_eq!(Starts::of([]), Some(Starts::NONE));
    assert_eq!(Starts::of(0..64), Some(ALL));
    assert_eq!(Starts::of(0..65), None);
    assert_eq!(format!("{:?}", set(&[63, 5, 0, 5])), "{0, 5, 63}");
    assert!(ALL.procedures().eq(0..64));
}
