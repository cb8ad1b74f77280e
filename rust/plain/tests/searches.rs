//! Both searches of the plain implementation: the one that forms every candidate and the semi-naive one agree in the answer and in each
//! row.

use bolfrega::{procedure, FileBuilder};
use making::Numbers;
use plain::{read, search, search_semi_naive, Plan, Search, Verdict, INITIAL};

/// Checks a plan with both, and returns what they agree on.
fn searched(plan: &Plan, starts: u64, rows: usize, budget: u64) -> Search {
    let every = search(plan, starts, rows, budget);
    let few = search_semi_naive(plan, starts, rows, budget);
    assert!(
        few == every,
        "with {rows} rows, budget {budget}: {few:?} and {every:?} of {plan:?}"
    );
    every
}

/// A plan at random with at most `rules` rules over `procedures` procedures and four codes.
fn plan_at_random(numbers: &mut Numbers, procedures: usize, rules: usize, moves: usize) -> Plan {
    let mut making = FileBuilder::new();
    for _ in 0..rules {
        let body: Vec<u8> = (0..numbers.pick(&[0, 1, 2, 2, 2]))
            .map(|_| symbol(numbers, procedures))
            .collect();
        making.rule(numbers.byte(procedures), &body);
    }
    let stages = numbers.pick(&[4, 16]);
    for _ in 0..moves {
        making.step(numbers.byte(stages), numbers.byte(4), numbers.byte(stages));
    }
    // Few checks are broken at once.
    (0..numbers.byte(stages)).for_each(|stage| {
        making.finishing(stage);
    });
    read(&making.bytes()).unwrap()
}

fn symbol(numbers: &mut Numbers, procedures: usize) -> u8 {
    if numbers.once_in(3) {
        numbers.byte(4)
    } else {
        procedure(numbers.byte(procedures))
    }
}

/// How often each verdict came: holds, broken, full, spent, empty.
#[derive(Default)]
struct Seen([usize; 5]);

impl Seen {
    fn note(&mut self, found: &Search) {
        self.0[found.answer.verdict as usize] += 1;
    }
}

#[test]
fn journals_and_budgets_at_random() {
    let mut numbers = Numbers::new(31);
    let mut seen = Seen::default();
    for round in 0..6_000 {
        let (procedures, rules, moves) = [(2, 5, 8), (4, 10, 16), (6, 24, 40)][round % 3];
        let plan = plan_at_random(&mut numbers, procedures, rules, moves);
        let starts = numbers.pick(&[INITIAL, 0, 0b110]);
        let rows = numbers.pick(&[1, 2, 3, 5, 20, 100, 1_024]);
        let budget = numbers.pick(&[0, 1, 5, 50, 500, 5_000, 20_000]);
        seen.note(&searched(&plan, starts, rows, budget));
    }
    assert!(seen.0.iter().all(|&times| times > 100), "{:?}", seen.0);
}

/// The budget runs out at each candidate once, also among those that are counted at once, and the journal is full at each row once.
#[test]
fn every_budget_and_journal() {
    let mut numbers = Numbers::new(32);
    let mut late = 0;
    for _ in 0..600 {
        let plan = plan_at_random(&mut numbers, 4, 12, 12);
        let ended = searched(&plan, 0, 1_024, 2_000).answer;
        if ended.joins < 2_000 {
            for budget in 0..=ended.joins + 1 {
                let spent = searched(&plan, 0, 1_024, budget).answer;
                assert_eq!(spent.verdict == Verdict::Spent, budget < ended.joins);
                assert_eq!(spent.joins, budget.min(ended.joins));
            }
            for rows in 1..=ended.used {
                searched(&plan, 0, rows, u64::MAX);
            }
            late += usize::from(ended.pass > 3);
        }
    }
    assert!(late > 100, "{late}");
}

/// Many rows of one procedure, so that exact matches are looked for, and rows that retire.
#[test]
fn many_rows() {
    let mut numbers = Numbers::new(33);
    let mut most = 0;
    for _ in 0..60 {
        let plan = plan_at_random(&mut numbers, 2, 8, 60);
        let found = searched(&plan, 0, 300, 200_000);
        most = most.max(found.answer.used);
    }
    assert!(most > 100, "{most}");
}
