//! Which procedures derive each stretch of a recorded run, height by height.

use crate::file::{read, Body, Plan, Refusal, Symbol};

const LONGEST_RUN: usize = 65_534;
const MOST_STEPS: usize = 64;
const CELLS: usize = 2_145;
const PROCEDURES: u8 = 64;

/// Whether the file's plan derives a recorded run; fills `table` with the procedures of each stretch, bit p for procedure p.
pub fn recognize(file: &[u8], run: &[u8], table: &mut [u64]) -> Result<bool, Refusal> {
    let plan = read(file)?;
    if run.len() > LONGEST_RUN || run.iter().any(|&code| code > 127) {
        return Err(Refusal::new(11));
    }
    if run.len() > MOST_STEPS {
        return Err(Refusal::new(13));
    }
    if table.len() != CELLS {
        return Err(Refusal::new(14));
    }
    let derived = at_any_height(&plan, run);
    let stretches = (0..=MOST_STEPS).flat_map(|i| (i..=MOST_STEPS).map(move |j| (i, j)));
    for (cell, (i, j)) in table.iter_mut().zip(stretches) {
        let within = j <= run.len();
        *cell = (0..PROCEDURES)
            .filter(|&p| within && derived.has(p, i, j))
            .fold(0, |set, p| set | 1 << p);
    }
    Ok(derived.has(0, 0, run.len()))
}

/// The stretches that each procedure derives.
struct Derived {
    steps: usize,
    known: Vec<bool>,
    count: usize,
}

impl Derived {
    fn nothing(steps: usize) -> Derived {
        let known = vec![false; usize::from(PROCEDURES) * (steps + 1) * (steps + 1)];
        Derived { steps, known, count: 0 }
    }

    fn place(&self, procedure: u8, i: usize, j: usize) -> usize {
        (usize::from(procedure) * (self.steps + 1) + i) * (self.steps + 1) + j
    }

    fn has(&self, procedure: u8, i: usize, j: usize) -> bool {
        self.known[self.place(procedure, i, j)]
    }

    fn add(&mut self, procedure: u8, i: usize, j: usize) {
        let place = self.place(procedure, i, j);
        self.count += usize::from(!self.known[place]);
        self.known[place] = true;
    }
}

/// What derivations of any height derive: those of one height more, by those of each height, until there is nothing new.
fn at_any_height(plan: &Plan, run: &[u8]) -> Derived {
    let mut lower = Derived::nothing(run.len());
    loop {
        let higher = one_higher(plan, run, &lower);
        if higher.count == lower.count {
            return higher;
        }
        lower = higher;
    }
}

/// What derivations derive that are at most one rule higher than those of `lower`.
fn one_higher(plan: &Plan, run: &[u8], lower: &Derived) -> Derived {
    let spells = |symbol: Symbol, i: usize, j: usize| match symbol {
        Symbol::Code(code) => run[i..j] == [code],
        Symbol::Procedure(procedure) => lower.has(procedure, i, j),
    };
    let gives = |body: Body, i: usize, j: usize| match body {
        Body::Nothing => i == j,
        Body::One(symbol) => spells(symbol, i, j),
        Body::Two(first, second) => (i..=j).any(|k| spells(first, i, k) && spells(second, k, j)),
    };
    let mut higher = Derived::nothing(run.len());
    for rule in &plan.rules {
        for i in 0..=run.len() {
            for j in (i..=run.len()).filter(|&j| gives(rule.body, i, j)) {
                higher.add(rule.procedure, i, j);
            }
        }
    }
    higher
}
