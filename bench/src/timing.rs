//! The checks on one file: that they agree, and how long each takes. The proved one is there over lent rows, and with rows of its own.

use crate::files::Case;
use bolfrega::raw::{Cells, Near};
use bolfrega::{Row, Starts, VerdictRows, MOST_ROWS, NEAR_WORDS, TABLE_CELLS};
use plain::{Checked, Refusal};
use std::cell::RefCell;
use std::hint::black_box;
use std::time::{Duration, Instant};

/// The answer in which all must agree.
#[derive(Clone, Copy, Debug, PartialEq, Eq)]
pub struct Outcome {
    pub verdict: &'static str,
    pub joins: u64,
    pub used: u64,
    pub pass: u64,
}

/// The least times of one check: by the proved library over lent rows, by plain Rust that forms every candidate, and by semi-naive plain Rust.
#[derive(Clone, Copy)]
pub struct Times {
    pub proved: Duration,
    /// `None` where a check that forms every candidate would take too long.
    pub every: Option<Duration>,
    pub semi_naive: Duration,
}

impl Times {
    pub fn ratio_to_every(&self) -> Option<f64> {
        Some(self.proved.as_secs_f64() / self.every?.as_secs_f64())
    }

    pub fn ratio_to_semi_naive(&self) -> f64 {
        self.proved.as_secs_f64() / self.semi_naive.as_secs_f64()
    }
}

const ROOM: usize = 4_096;
/// How long one measured batch of checks is at least.
const BATCH: Duration = Duration::from_millis(4);
/// How long the measuring of one file goes on, and how many times each check is measured at least.
const PATIENCE: Duration = Duration::from_millis(600);
const LEAST_ROUNDS: usize = 7;

/// A check that takes longer than this is measured by one call.
const SLOW: Duration = Duration::from_secs(5);

/// Checks the case with each. An error says how they differ.
pub fn agree(case: &Case) -> Result<Outcome, String> {
    let outcomes = Which::of(case).chain([Which::Alone]).map(|which| (which.check(case), which));
    same(case, &outcomes.collect::<Vec<_>>())
}

/// Checks the case with the three of a table, which must agree, and measures them in turn. Returns the least time of each.
pub fn measure(case: &Case) -> Result<(Outcome, Times), String> {
    let began = Instant::now();
    let mut clocks: Vec<Clock> = Which::of(case).map(|which| Clock::new(case, which)).collect();
    let outcome = same(
        case,
        &clocks.iter().map(|clock| (clock.outcome, clock.which)).collect::<Vec<_>>(),
    )?;
    let mut rounds = 0;
    while rounds < LEAST_ROUNDS || began.elapsed() < PATIENCE {
        clocks.iter_mut().for_each(|clock| clock.measure(case));
        rounds += 1;
    }
    let least = |which| clocks.iter().find(|clock| clock.which == which).map(|clock| clock.least);
    let always = "each case is checked with it";
    let times = Times {
        proved: least(Which::Lent).expect(always),
        every: least(Which::Every),
        semi_naive: least(Which::SemiNaive).expect(always),
    };
    Ok((outcome, times))
}

/// The least time of one proved check that has rows of its own.
pub fn measure_alone(case: &Case) -> Duration {
    least(case, Which::Alone)
}

/// The least time of one proved check over lent rows.
pub fn measure_lent(case: &Case) -> Duration {
    least(case, Which::Lent)
}

fn least(case: &Case, which: Which) -> Duration {
    let mut clock = Clock::new(case, which);
    (0..LEAST_ROUNDS).for_each(|_| clock.measure(case));
    clock.least
}

/// What all say of the case.
fn same(case: &Case, outcomes: &[(Option<Outcome>, Which)]) -> Result<Outcome, String> {
    match outcomes {
        [(Some(first), _), rest @ ..] if rest.iter().all(|(other, _)| other == &Some(*first)) => Ok(*first),
        _ => Err(format!("{}: {outcomes:?}", case.name)),
    }
}

/// One of the checks.
#[derive(Clone, Copy, Debug, PartialEq, Eq)]
enum Which {
    /// The proved one, over lent rows.
    Lent,
    /// The proved one, with rows of its own.
    Alone,
    Every,
    SemiNaive,
}

impl Which {
    /// Those of a table that the case is checked with.
    fn of(case: &Case) -> impl Iterator<Item = Which> + '_ {
        [Which::Lent, Which::Every, Which::SemiNaive]
            .into_iter()
            .filter(|&which| which != Which::Every || case.by_every)
    }

    /// Checks the case; `None` is a refusal.
    fn check(self, case: &Case) -> Option<Outcome> {
        match self {
            Which::Lent => lent(case),
            Which::Alone => alone(case),
            Which::Every => plainly(case, plain::check),
            Which::SemiNaive => plainly(case, plain::check_semi_naive),
        }
    }
}

/// The measuring of one check on one file.
struct Clock {
    which: Which,
    outcome: Option<Outcome>,
    /// How many checks make a batch.
    batch: u32,
    least: Duration,
}

impl Clock {
    fn new(case: &Case, which: Which) -> Clock {
        let began = Instant::now();
        let outcome = which.check(case);
        let least = began.elapsed();
        let batch = if least < SLOW { batch(case, which) } else { 1 };
        Clock {
            which,
            outcome,
            batch,
            least,
        }
    }

    /// Measures a batch, unless one call takes too long.
    fn measure(&mut self, case: &Case) {
        if self.least < SLOW {
            self.least = self.least.min(average(case, self.batch, self.which));
        }
    }
}

/// How many checks make a batch.
fn batch(case: &Case, which: Which) -> u32 {
    let mut count = 1;
    while average(case, count, which) * count < BATCH {
        count *= 2;
    }
    count
}

/// The time of one check in a batch.
fn average(case: &Case, count: u32, which: Which) -> Duration {
    let began = Instant::now();
    for _ in 0..count {
        black_box(which.check(black_box(case)));
    }
    began.elapsed() / count
}

/// What the check over lent rows works in: made once, and lent for each check with what the one before has left there.
struct Lent {
    rows: Vec<Row>,
    cells: Box<Cells>,
    near: Box<Near>,
}

thread_local! {
    static LENT: RefCell<Lent> = RefCell::new(Lent {
        rows: vec![Row::default(); MOST_ROWS],
        cells: vec![0; TABLE_CELLS].try_into().expect("as many"),
        near: vec![0; NEAR_WORDS].try_into().expect("as many"),
    });
}

/// The proved check over lent rows, and the run of a broken one.
fn lent(case: &Case) -> Option<Outcome> {
    let mut buffer = [0; ROOM];
    LENT.with_borrow_mut(|Lent { rows, cells, near }| {
        let rows = &mut rows[..case.rows];
        let answer = bolfrega::check_rows(&case.file, Starts::INITIAL, case.budget, rows, cells, near).ok()?;
        let verdict = match answer.verdict {
            VerdictRows::Holds => "holds",
            VerdictRows::Broken(broken) => {
                // A run that is too long for the buffer is refused here as in the other checks.
                let _ = black_box(bolfrega::write(&case.file, rows, answer.used, broken.row, &mut buffer));
                "broken"
            }
            VerdictRows::Full => "full",
            VerdictRows::Spent => "spent",
            VerdictRows::Empty => "empty",
            other => panic!("{other:?}"),
        };
        Some(Outcome {
            verdict,
            joins: answer.joins,
            used: answer.used as u64,
            pass: answer.pass,
        })
    })
}

/// The proved check with rows of its own.
fn alone(case: &Case) -> Option<Outcome> {
    let mut buffer = [0; ROOM];
    let answer = bolfrega::check(&case.file, case.rows, case.budget, &mut buffer).ok()?;
    let verdict = match answer.verdict {
        bolfrega::Verdict::Holds => "holds",
        bolfrega::Verdict::Broken(_) => "broken",
        bolfrega::Verdict::Full => "full",
        bolfrega::Verdict::Spent => "spent",
        bolfrega::Verdict::Empty => "empty",
        other => panic!("{other:?}"),
    };
    Some(Outcome {
        verdict,
        joins: answer.joins,
        used: answer.used,
        pass: answer.pass,
    })
}

/// One of the plain checks.
type Plain = fn(&[u8], usize, u64, &mut [u8]) -> Result<Checked, Refusal>;

fn plainly(case: &Case, check: Plain) -> Option<Outcome> {
    let mut buffer = [0; ROOM];
    let checked = check(&case.file, case.rows, case.budget, &mut buffer).ok()?;
    let verdict = match checked.answer.verdict {
        plain::Verdict::Holds => "holds",
        plain::Verdict::Broken => "broken",
        plain::Verdict::Full => "full",
        plain::Verdict::Spent => "spent",
        plain::Verdict::Empty => "empty",
    };
    Some(Outcome {
        verdict,
        joins: checked.answer.joins,
        used: checked.answer.used as u64,
        pass: checked.answer.pass.into(),
    })
}
