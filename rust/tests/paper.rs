//! The cases of document 01, those of C-11's remarks and those of C-15's plans without runs, through the library.

mod common;

use bolfrega::{check, judge, procedure, raw, refusal, FileBuilder, Judgement, Refusal, Verdict};
use common::{checking, judging, reading};
use making::{plan_a, plan_b, sheet_s};
use plain::FIRST_REMARK;

const PLAN_A: &[u8] = include_bytes!("../../samples/plan-a.plan");
const PLAN_B: &[u8] = include_bytes!("../../samples/plan-b.plan");
const REMARKS: &[u8] = include_bytes!("../../samples/remarks.plan");
const ENDLESS: &[u8] = include_bytes!("../../samples/endless.plan");

/// Plan A with sheet S, and a remark before each index row: 2 gives a remark and 3, and 3 gives what 2 gave.
fn plan_a_with_a_remark() -> FileBuilder {
    let mut making = sheet_s();
    making
        .rule(0, &[procedure(1), 3])
        .rule(1, &[])
        .rule(1, &[1, procedure(2)])
        .rule(2, &[FIRST_REMARK, procedure(3)])
        .rule(3, &[2, procedure(1)]);
    making
}

/// A plan without its ending rule, with sheet S: 0 gives a tile row, an index row, and itself. "0 gives the close" was dropped, and only
/// procedure 3 gives the close.
fn endless() -> FileBuilder {
    let mut making = sheet_s();
    making
        .rule(0, &[procedure(1), procedure(0)])
        .rule(1, &[1, procedure(2)])
        .rule(2, &[2])
        .rule(3, &[3]);
    making
}

/// The verdict without what a broken one shows, and the counts.
fn line(file: &[u8], rows: usize, budget: u64) -> (&'static str, u64, u64, u64) {
    checking(file, rows, budget, 16);
    let mut buffer = [0; 16];
    let answer = check(file, rows, budget, &mut buffer).unwrap();
    let verdict = match answer.verdict {
        Verdict::Holds => "holds",
        Verdict::Broken(_) => "broken",
        Verdict::Full => "full",
        Verdict::Spent => "spent",
        Verdict::Empty => "empty",
        other => panic!("{other:?}"),
    };
    (verdict, answer.joins, answer.used, answer.pass)
}

#[test]
fn samples_are_the_plans() {
    assert_eq!(plan_a().bytes(), PLAN_A);
    assert_eq!(plan_b().bytes(), PLAN_B);
    assert_eq!(plan_a_with_a_remark().bytes(), REMARKS);
    assert_eq!(endless().bytes(), ENDLESS);
}

#[test]
fn a_holds() {
    assert_eq!(line(PLAN_A, 1_024, 1_000_000), ("holds", 12, 4, 4));
}

#[test]
fn b_is_broken() {
    let mut buffer = [7; 4_096];
    let answer = check(PLAN_B, 1_024, 1_000_000, &mut buffer).unwrap();
    assert_eq!((answer.joins, answer.used, answer.pass), (12, 7, 4));
    let Verdict::Broken(broken) = answer.verdict else {
        panic!("{answer:?}")
    };
    assert_eq!((broken.row, broken.pairs, broken.length), (6, 0, 2));
    assert_eq!(broken.run, Ok(&[1, 3][..]));
    assert!(buffer[2..].iter().all(|&byte| byte == 7));
    checking(PLAN_B, 1_024, 1_000_000, 4_096);
}

#[test]
fn b_with_little_room() {
    for room in 0..2 {
        let mut buffer = vec![7; room];
        let Verdict::Broken(broken) = check(PLAN_B, 1_024, 1_000_000, &mut buffer).unwrap().verdict else {
            panic!()
        };
        assert_eq!((broken.length, broken.run), (2, Err(Refusal::Room)));
        assert!(buffer.iter().all(|&byte| byte == 7));
        checking(PLAN_B, 1_024, 1_000_000, room);
    }
    checking(PLAN_B, 1_024, 1_000_000, 2);
}

#[test]
fn a_with_each_budget() {
    assert_eq!(line(PLAN_A, 1_024, 11), ("spent", 11, 4, 4));
    assert_eq!(line(PLAN_A, 1_024, 12), ("holds", 12, 4, 4));
    for budget in 0..12 {
        let (verdict, joins, ..) = line(PLAN_A, 1_024, budget);
        assert_eq!((verdict, joins), ("spent", budget));
    }
}

#[test]
fn a_with_few_rows() {
    assert_eq!(line(PLAN_A, 3, 1_000_000), ("full", 7, 3, 3));
    assert_eq!(line(PLAN_A, 4, 1_000_000), ("holds", 12, 4, 4));
}

#[test]
fn the_empty_file() {
    assert_eq!(line(&[], 1_024, 0), ("empty", 0, 0, 1));
    assert_eq!(refusal(&[]), Ok(()));
}

#[test]
fn plans_without_runs() {
    // Without the rule that ends procedure 0, and with it.
    assert_eq!(line(ENDLESS, 1_024, 1_000_000), ("empty", 8, 3, 3));
    assert_eq!(line(&endless().rule(0, &[3]).bytes(), 1_024, 1_000_000), ("holds", 12, 4, 3));
    assert_eq!(
        line(&FileBuilder::new().rule(0, &[191]).bytes(), 1_024, 0),
        ("empty", 0, 0, 1)
    );
    // Full and spent come first, and the answer stays with more rows and joins.
    let headless = &PLAN_A[8..];
    assert_eq!(line(headless, 3, 9), ("empty", 9, 3, 4));
    assert_eq!(line(headless, 4_096, u64::MAX), ("empty", 9, 3, 4));
    assert_eq!(line(headless, 2, 9), ("full", 5, 2, 3));
    assert_eq!(line(headless, 3, 8), ("spent", 8, 3, 4));
}

#[test]
fn only_nothing() {
    let mut making = FileBuilder::new();
    let file = making.rule(0, &[]).bytes();
    assert_eq!(line(&file, 1_024, 1_000_000), ("broken", 1, 1, 1));
    let mut buffer = [];
    let Verdict::Broken(broken) = check(&file, 1_024, 1_000_000, &mut buffer).unwrap().verdict else {
        panic!()
    };
    assert_eq!((broken.row, broken.pairs, broken.length, broken.run), (0, 16, 0, Ok(&[][..])));

    let file = making.finishing(0).bytes();
    assert_eq!(line(&file, 1_024, 1_000_000), ("holds", 2, 1, 2));
}

#[test]
fn runs_on_s() {
    let file = sheet_s().bytes();
    assert_eq!(judge(&file, &[1, 3]), Ok(Judgement::TurnedAway));
    assert_eq!(judge(&file, &[1, 2, 3]), Ok(Judgement::Accepted));
    judging(&file, &[1, 3]);
    judging(&file, &[1, 2, 3]);
}

#[test]
fn a_with_a_remark_holds() {
    assert_eq!(line(REMARKS, 1_024, 1_000_000), ("holds", 18, 5, 5));
}

#[test]
fn remarks_alone() {
    // The run is written out with its remarks, and its effect has all sixteen pairs.
    let mut making = FileBuilder::new();
    let file = making.rule(0, &[FIRST_REMARK, 127]).bytes();
    assert_eq!(line(&file, 1_024, 1_000_000), ("broken", 1, 1, 1));
    let (_, details, buffer) = checking(&file, 1_024, 1_000_000, 3);
    assert_eq!(
        (&details[4..], &buffer[..]),
        (&[0, 16, 2, 0][..], &[FIRST_REMARK, 127, 202][..])
    );
    assert_eq!(judging(&file, &[FIRST_REMARK, 127]), (raw::TURNED_AWAY, 0));

    let file = making.finishing(0).bytes();
    assert_eq!(line(&file, 1_024, 1_000_000), ("holds", 2, 1, 2));
    assert_eq!(judging(&file, &[FIRST_REMARK, 127]), (raw::ACCEPTED, 0));
}

#[test]
fn runs_with_remarks_on_s() {
    let file = sheet_s().bytes();
    assert_eq!(judging(&file, &[1, FIRST_REMARK, 2, 127, 3]), (raw::ACCEPTED, 0));
    assert_eq!(judging(&file, &[1, FIRST_REMARK - 1, 2, 3]), (raw::TURNED_AWAY, 0));
    assert_eq!(judging(&file, &[1, FIRST_REMARK, 3]), (raw::TURNED_AWAY, 0));
}

#[test]
fn a_move_on_a_remark() {
    let file = [[2, 0, FIRST_REMARK - 1, 1, 0, 0, 0, 0], [2, 0, FIRST_REMARK, 1, 0, 0, 0, 0]].concat();
    assert_eq!(reading(&file), (12, 1));
    assert_eq!(refusal(&file), Err(Refusal::Remark { record: 1 }));
    assert_eq!(
        refusal(&file).unwrap_err().to_string(),
        "record 1: it is a move on a remark, a code of 120 or above (12)"
    );
    assert_eq!(reading(&[2, 0, 127, 1, 0, 0, 0, 0]), (12, 0));
    assert_eq!(reading(&[2, 0, 128, 1, 0, 0, 0, 0]), (4, 0));
}

#[test]
fn the_last_case() {
    assert_eq!(reading(&[0; 8 * 1_297]), (2, 0));
    assert_eq!(reading(&FileBuilder::new().rule(0, &[191]).bytes()), (0, 0));
    assert_eq!(reading(&FileBuilder::new().rule(0, &[192]).bytes()), (4, 0));
    assert_eq!(reading(&[3, 1, 0, 0, 0, 0, 0, 0].repeat(2)), (6, 1));
}

#[test]
fn words_of_a_refusal() {
    let file = [&[3, 0, 0, 0, 0, 0, 0, 0], &[3, 16, 0, 0, 0, 0, 0, 0][..]].concat();
    assert_eq!(
        refusal(&file).unwrap_err().to_string(),
        "record 1: a used byte is above its range (4)"
    );
    assert_eq!(
        refusal(&[1]).unwrap_err().to_string(),
        "the file's length is no multiple of 8 (1)"
    );
    assert_eq!(
        Refusal::Run.to_string(),
        "the run has more than 65,534 steps or a code above 127 (11)"
    );
}

#[test]
fn the_running_example_of_document_000() {
    let file = include_bytes!("../../samples/running-example.plan");
    let (code, details, buffer) = checking(file, 1_024, 1_000_000, 16);
    assert_eq!((code, &buffer[..details[6] as usize]), (raw::BROKEN, &[1, 4][..]));
}
