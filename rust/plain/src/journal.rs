//! The journal of a check under way: its rows, the choices that a pass has for a symbol, and what becomes of a candidate. Both ways of
//! going through the candidates, `order` and `semi_naive`, use it.

use crate::effect::Effect;
use crate::file::{Plan, Symbol, LAST_PROCEDURE};

/// The pointer of a symbol that is a step code or absent.
pub const ABSENT: u16 = 65_535;

/// The length that means "that or more". It is the greatest of its type, so that a saturating sum is the capped one.
pub(crate) const CAP: u16 = u16::MAX;

pub(crate) const PROCEDURES: usize = 64;

/// How a check ends.
#[derive(Clone, Copy, Debug, PartialEq, Eq)]
pub enum Verdict {
    Holds,
    Broken,
    Full,
    Spent,
    Empty,
}

/// What every check says.
#[derive(Clone, Copy, Debug, PartialEq, Eq)]
pub struct Answer {
    pub verdict: Verdict,
    pub joins: u64,
    pub used: usize,
    pub pass: u16,
    /// The row of a broken answer, else 65,535.
    pub row: u16,
}

/// One row of the journal. There are at most 4,096 rows, so a pass is at most 4,097.
#[derive(Clone, Copy, Debug, PartialEq, Eq)]
pub struct Row {
    pub procedure: u8,
    pub rule: u16,
    pub effect: Effect,
    pub left: u16,
    pub right: u16,
    pub length: u16,
    pub birth: u16,
    /// 0 while live.
    pub retired: u16,
}

/// A check that has ended: its answer and the rows that it used.
#[derive(Clone, Debug, PartialEq, Eq)]
pub struct Search {
    pub answer: Answer,
    pub rows: Vec<Row>,
}

/// Checks a plan, pass after pass, until one of them stops or adds no row. `one_pass` goes through the candidates of a pass; an error of it
/// is the verdict that stopped it.
pub(crate) fn passes(
    plan: &Plan,
    mut journal: Journal,
    mut one_pass: impl FnMut(&Choices, &mut Journal) -> Result<(), Verdict>,
) -> Search {
    let mut choices = Choices::new(&plan.codes);
    let mut before = 0;
    let verdict = loop {
        let used = journal.rows.len();
        journal.pass += 1;
        choices.begin_pass(&mut journal, before);
        match one_pass(&choices, &mut journal) {
            Err(stop) => break stop,
            Ok(()) if journal.rows.len() == used => break journal.finish(),
            Ok(()) => before = used,
        }
    };
    journal.end(verdict)
}

/// Where a candidate comes from.
#[derive(Clone, Copy)]
pub(crate) struct Origin {
    pub procedure: u8,
    pub rule: u16,
}

/// One choice for a symbol: a live row, or the step code itself.
#[derive(Clone, Copy)]
pub(crate) struct Choice {
    pub effect: Effect,
    row: u16,
    length: u16,
}

impl Choice {
    /// What stands for a symbol that the body doesn't have.
    pub const NONE: Choice = Choice {
        effect: Effect::IDENTITY,
        row: ABSENT,
        length: 0,
    };
}

/// The choices for one symbol in a pass, rows rising. The first `old` of them were choices in the pass before, too.
#[derive(Clone, Copy)]
pub(crate) struct Part<'a> {
    pub all: &'a [Choice],
    pub old: usize,
}

impl<'a> Part<'a> {
    /// The choices that the pass before didn't have.
    pub fn new_ones(self) -> &'a [Choice] {
        &self.all[self.old..]
    }
}

/// The choices for each symbol in a pass: a step code is one, a procedure has the rows that were live when the pass began.
pub(crate) struct Choices {
    codes: Vec<Choice>,
    procedures: Vec<Vec<Choice>>,
    /// How many choices of each code, and of each procedure, the pass before had.
    old_code: usize,
    old: [usize; PROCEDURES],
}

impl Choices {
    fn new(codes: &[Effect; 128]) -> Choices {
        let step = |&effect| Choice {
            effect,
            row: ABSENT,
            length: 1,
        };
        Choices {
            codes: codes.iter().map(step).collect(),
            procedures: vec![Vec::new(); PROCEDURES],
            old_code: 0,
            old: [0; PROCEDURES],
        }
    }

    /// Takes over the live rows of each procedure that has changed since the pass before. `before` is the number of rows that were used
    /// when that pass began: a row that is live now and was there then was live then.
    fn begin_pass(&mut self, journal: &mut Journal, before: usize) {
        self.old_code = usize::from(journal.pass > 1);
        for ((choices, old), live) in self.procedures.iter_mut().zip(&mut self.old).zip(&mut journal.live) {
            if live.changed {
                live.changed = false;
                choices.clear();
                choices.extend(live.rows.iter().map(|&row| journal.rows[usize::from(row)].choice(row)));
                *old = choices.partition_point(|choice| usize::from(choice.row) < before);
            } else {
                *old = choices.len();
            }
        }
    }

    /// Whether no pass came before this one.
    pub fn first_pass(&self) -> bool {
        self.old_code == 0
    }

    pub fn of(&self, symbol: Symbol) -> Part<'_> {
        match symbol {
            Symbol::Code(code) => Part {
                all: std::slice::from_ref(&self.codes[usize::from(code)]),
                old: self.old_code,
            },
            Symbol::Procedure(procedure) => Part {
                all: &self.procedures[usize::from(procedure)],
                old: self.old[usize::from(procedure)],
            },
        }
    }
}

impl Row {
    fn choice(&self, number: u16) -> Choice {
        Choice {
            effect: self.effect,
            row: number,
            length: self.length,
        }
    }
}

/// The live rows of one procedure, rising, with their effects beside them.
#[derive(Clone, Default)]
pub(crate) struct Live {
    rows: Vec<u16>,
    pub effects: Vec<Effect>,
    /// The effect that covered a candidate last, which is tried first. It stays good when its row retires: the row that retired
    /// it has a smaller effect, and covers what it covered.
    last: Option<Effect>,
    changed: bool,
}

impl Live {
    /// Whether the effect that covered last covers the candidate's.
    #[inline]
    pub fn covers_again(&self, candidate: Effect) -> bool {
        self.last.is_some_and(|last| last.within(candidate))
    }

    /// Looks through all live rows for one whose effect is contained in or equal to the candidate's.
    #[inline]
    pub fn look(&mut self, candidate: Effect) -> bool {
        let found = self.effects.iter().find(|effect| effect.within(candidate));
        if found.is_some() {
            self.last = found.copied();
        }
        found.is_some()
    }

    /// Adds a row that nothing covers, and gives the rows with a larger effect to `retire`.
    fn add(&mut self, row: u16, effect: Effect, mut retire: impl FnMut(u16)) {
        self.changed = true;
        if self.effects.iter().any(|&old| effect.within(old)) {
            let mut kept = 0;
            for at in 0..self.rows.len() {
                if effect.within(self.effects[at]) {
                    retire(self.rows[at]);
                } else {
                    self.rows[kept] = self.rows[at];
                    self.effects[kept] = self.effects[at];
                    kept += 1;
                }
            }
            self.rows.truncate(kept);
            self.effects.truncate(kept);
        }
        self.rows.push(row);
        self.effects.push(effect);
    }
}

/// A check under way.
pub(crate) struct Journal {
    rows: Vec<Row>,
    pub live: Vec<Live>,
    finishing: u16,
    starts: u64,
    limit: usize,
    budget: u64,
    joins: u64,
    pass: u16,
}

impl Journal {
    pub fn new(plan: &Plan, starts: u64, limit: usize, budget: u64) -> Journal {
        Journal {
            rows: Vec::new(),
            live: vec![Live::default(); PROCEDURES],
            finishing: plan.finishing,
            starts,
            limit,
            budget,
            joins: 0,
            pass: 0,
        }
    }

    /// Counts the next candidate, unless the budget is spent.
    #[inline]
    pub fn join(&mut self) -> Result<(), Verdict> {
        if self.joins == self.budget {
            return Err(Verdict::Spent);
        }
        self.joins += 1;
        Ok(())
    }

    /// Counts the next `count` candidates, which need no work, as far as the budget goes.
    #[inline]
    pub fn join_all(&mut self, count: usize) -> Result<(), Verdict> {
        let count = count as u64;
        if self.budget - self.joins < count {
            self.joins = self.budget;
            return Err(Verdict::Spent);
        }
        self.joins += count;
        Ok(())
    }

    /// Drops a candidate that a live row covers, and keeps any other. It isn't inlined: where it is, the compiler composes one word at a time in
    /// the loop around it, and no longer two, which takes up to 1.4 times as long.
    #[inline(never)]
    pub fn consider(&mut self, origin: Origin, effect: Effect, left: Choice, right: Choice) -> Result<(), Verdict> {
        let live = &mut self.live[usize::from(origin.procedure)];
        if live.covers_again(effect) || live.look(effect) {
            return Ok(());
        }
        self.keep(origin, effect, left, right)
    }

    /// Makes a candidate that no row covers the next row and retires those with a larger effect; says if that ends the check.
    pub fn keep(&mut self, origin: Origin, effect: Effect, left: Choice, right: Choice) -> Result<(), Verdict> {
        self.add(Row {
            procedure: origin.procedure,
            rule: origin.rule,
            effect,
            left: left.row,
            right: right.row,
            length: left.length.saturating_add(right.length),
            birth: self.pass,
            retired: 0,
        })
    }

    fn add(&mut self, row: Row) -> Result<(), Verdict> {
        if self.rows.len() == self.limit {
            return Err(Verdict::Full);
        }
        let number = self.rows.len() as u16;
        let (rows, pass) = (&mut self.rows, self.pass);
        self.live[usize::from(row.procedure)].add(number, row.effect, |old| rows[usize::from(old)].retired = pass);
        rows.push(row);
        if self.is_member(row.procedure) && row.effect.rejects(self.finishing) {
            return Err(Verdict::Broken);
        }
        Ok(())
    }

    /// Whether a procedure is one of the starting procedures.
    fn is_member(&self, procedure: u8) -> bool {
        self.starts >> procedure & 1 == 1
    }

    /// The verdict after a pass that has added no row: empty if some member has no row, and holds if all have.
    fn finish(&self) -> Verdict {
        let has_a_row = |procedure| self.rows.iter().any(|row| row.procedure == procedure);
        if (0..=LAST_PROCEDURE).all(|procedure| !self.is_member(procedure) || has_a_row(procedure)) {
            Verdict::Holds
        } else {
            Verdict::Empty
        }
    }

    fn end(self, verdict: Verdict) -> Search {
        let used = self.rows.len();
        let answer = Answer {
            verdict,
            joins: self.joins,
            used,
            pass: self.pass,
            row: if verdict == Verdict::Broken { used as u16 - 1 } else { ABSENT },
        };
        Search { answer, rows: self.rows }
    }
}
