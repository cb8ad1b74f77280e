//! The cases of document 01, so that the plain implementation is tested where there is no proved library.

use plain::{check, check_from, judge, narrow, read, unfold, unfold_from, widen};
use plain::{Answer, Refusal, Verdict, ABSENT, FIRST_REMARK};

const PLAN_A: &[u8] = include_bytes!("../../../samples/plan-a.plan");
const PLAN_B: &[u8] = include_bytes!("../../../samples/plan-b.plan");
const REMARKS: &[u8] = include_bytes!("../../../samples/remarks.plan");
const ENDLESS: &[u8] = include_bytes!("../../../samples/endless.plan");
const LONG_BODIES: &[u8] = include_bytes!("../../../samples/long-bodies.wide");
const LONG_BROKEN: &[u8] = include_bytes!("../../../samples/long-broken.wide");
const ONLY_NOTHING: [u8; 8] = [1, 0, 0, 0, 0, 0, 0, 0];

fn answer(file: &[u8], rows: usize, budget: u64) -> Answer {
    check(file, rows, budget, &mut [0; 64]).unwrap().answer
}

fn said(verdict: Verdict, joins: u64, used: usize, pass: u16) -> Answer {
    Answer {
        verdict,
        joins,
        used,
        pass,
        row: if verdict == Verdict::Broken { used as u16 - 1 } else { ABSENT },
    }
}

#[test]
fn plan_a() {
    assert_eq!(answer(PLAN_A, 1_024, 1_000_000), said(Verdict::Holds, 12, 4, 4));
    assert_eq!(answer(PLAN_A, 1_024, 11), said(Verdict::Spent, 11, 4, 4));
    assert_eq!(answer(PLAN_A, 1_024, 12), said(Verdict::Holds, 12, 4, 4));
    assert_eq!(answer(PLAN_A, 3, 1_000_000), said(Verdict::Full, 7, 3, 3));
    assert_eq!(answer(PLAN_A, 4, 1_000_000), said(Verdict::Holds, 12, 4, 4));
}

#[test]
fn plan_b() {
    let mut buffer = [9; 8];
    let checked = check(PLAN_B, 1_024, 1_000_000, &mut buffer).unwrap();
    assert_eq!(checked.answer, said(Verdict::Broken, 12, 7, 4));
    let broken = checked.broken.unwrap();
    assert_eq!((broken.row, broken.pairs, broken.length, broken.written), (6, 0, 2, Ok(2)));
    assert_eq!(buffer, [1, 3, 9, 9, 9, 9, 9, 9]);
}

#[test]
fn small_files() {
    assert_eq!(answer(&[], 1, 0), said(Verdict::Empty, 0, 0, 1));
    assert_eq!(answer(&ONLY_NOTHING, 1_024, 1_000_000), said(Verdict::Broken, 1, 1, 1));
    let finishing = [ONLY_NOTHING, [3, 0, 0, 0, 0, 0, 0, 0]].concat();
    assert_eq!(answer(&finishing, 1_024, 1_000_000), said(Verdict::Holds, 2, 1, 2));
}

#[test]
fn plans_without_runs() {
    assert_eq!(answer(ENDLESS, 1_024, 1_000_000), said(Verdict::Empty, 8, 3, 3));
    assert_eq!(answer(&PLAN_A[8..], 3, 9), said(Verdict::Empty, 9, 3, 4));
    assert_eq!(answer(&PLAN_A[8..], 2, 9), said(Verdict::Full, 5, 2, 3));
    assert_eq!(answer(&PLAN_A[8..], 3, 8), said(Verdict::Spent, 8, 3, 4));
    // 0 gives (procedure 63), which has no rule.
    assert_eq!(answer(&[1, 0, 1, 191, 0, 0, 0, 0], 1, 0), said(Verdict::Empty, 0, 0, 1));
}

#[test]
fn runs_on_sheet_s() {
    assert_eq!(judge(PLAN_A, &[1, 3]), Ok(false));
    assert_eq!(judge(PLAN_A, &[1, 2, 3]), Ok(true));
}

#[test]
fn remarks() {
    assert_eq!(answer(REMARKS, 1_024, 1_000_000), said(Verdict::Holds, 18, 5, 5));
    assert_eq!(judge(PLAN_A, &[1, FIRST_REMARK, 2, 127, 3]), Ok(true));
    assert_eq!(judge(PLAN_A, &[1, FIRST_REMARK - 1, 2, 3]), Ok(false));
    assert_eq!(judge(PLAN_A, &[FIRST_REMARK, 3]), Ok(true));
    assert_eq!(judge(PLAN_A, &[FIRST_REMARK]), Ok(false));
    let on = |code| read(&[2, 0, code, 1, 0, 0, 0, 0]).err();
    let refused = |number| Some(Refusal { number, record: 0 });
    assert_eq!([119, 120, 127, 128].map(on), [None, refused(12), refused(12), refused(4)]);
}

#[test]
fn sixteen_byte_records() {
    let refused = |number| Err(Refusal { number, record: 0 });
    let mut out = [9; 200];
    assert_eq!(unfold(LONG_BODIES, &mut out), Ok(152));
    assert_eq!(out[..152], *include_bytes!("../../../samples/long-bodies.plan"));
    assert_eq!(out[152..], [9; 48]);
    assert_eq!(answer(&out[..152], 1_024, 1_000_000), said(Verdict::Holds, 123, 15, 13));
    assert_eq!(unfold(LONG_BROKEN, &mut out), Ok(168));
    assert_eq!(out[..168], *include_bytes!("../../../samples/long-broken.plan"));
    assert_eq!(answer(&out[..168], 1_024, 1_000_000), said(Verdict::Broken, 159, 36, 14));

    assert_eq!(unfold(LONG_BODIES, &mut out[..151]), refused(10));
    assert_eq!(unfold(&LONG_BODIES[8..], &mut []), refused(16));
    assert_eq!(narrow(LONG_BODIES, &mut []), refused(17));
    assert_eq!(
        unfold(include_bytes!("../../../samples/many-chains.wide"), &mut []),
        refused(18)
    );

    assert_eq!(widen(PLAN_A, &mut out), Ok(128));
    let wide = out[..128].to_vec();
    assert_eq!(narrow(&wide, &mut out), Ok(64));
    assert_eq!(out[..64], *PLAN_A);
    assert_eq!(unfold(&wide, &mut out), Ok(64));
    assert_eq!(out[..64], *PLAN_A);
}

/// A set of procedures as a word.
fn set(procedures: &[u8]) -> u64 {
    procedures.iter().fold(0, |set, procedure| set | 1 << procedure)
}

#[test]
fn several_starting_procedures() {
    let mut buffer = [9; 8];
    let mut told = |file, starts| {
        let checked = check_from(file, starts, 1_024, 1_000_000, &mut buffer).unwrap();
        (checked.answer, checked.broken.map(|broken| broken.procedure))
    };
    // Procedure 0 alone: as ever. Procedure 1 gives nothing, and stage 0 is not finishing.
    assert_eq!(told(PLAN_A, set(&[0])), (said(Verdict::Holds, 12, 4, 4), None));
    assert_eq!(told(PLAN_A, set(&[1])), (said(Verdict::Broken, 1, 1, 1), Some(1)));
    assert_eq!(told(PLAN_A, set(&[0, 2])), (said(Verdict::Broken, 4, 3, 2), Some(2)));
    // Procedure 63 has no rule.
    assert_eq!(told(PLAN_A, set(&[0, 63])), (said(Verdict::Empty, 12, 4, 4), None));
    assert_eq!(told(PLAN_A, set(&[63])), (said(Verdict::Empty, 12, 4, 4), None));
    // With no member it is never broken or empty.
    assert_eq!(told(PLAN_B, 0).0.verdict, Verdict::Holds);
    assert_eq!(told(&[], 0), (said(Verdict::Holds, 0, 0, 1), None));
    assert_eq!(told(&[], u64::MAX), (said(Verdict::Empty, 0, 0, 1), None));
}

#[test]
fn members_are_in_use() {
    let wide = [1, 0, 3, 5, 6, 7, 0, 0, 0, 0, 0, 0, 0, 0, 0, 0];
    let mut out = [0; 16];
    for (starts, chain) in [(set(&[]), 1), (set(&[0]), 1), (set(&[5]), 6), (set(&[2, 62]), 63)] {
        assert_eq!(unfold_from(&wide, starts, &mut out), Ok(16));
        assert_eq!(out, [1, 0, 2, 5, 128 + chain, 0, 0, 0, 1, chain, 2, 6, 7, 0, 0, 0]);
    }
    assert_eq!(
        unfold_from(&wide, set(&[63]), &mut out),
        Err(Refusal { number: 18, record: 0 })
    );
    // No chain procedure is needed.
    assert_eq!(
        unfold_from(&[1, 0, 2, 5, 6, 0, 0, 0, 0, 0, 0, 0, 0, 0, 0, 0], u64::MAX, &mut out),
        Ok(8)
    );
}
