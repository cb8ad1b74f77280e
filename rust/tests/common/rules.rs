//! The rules of a plan as they stand, in either form: what each procedure derives, said without unfolding and without effects.

use making::Numbers;
use std::collections::BTreeSet;

/// A plan's rules: the procedure of each, and the symbols of its body.
pub struct Rules {
    pub rules: Vec<(u8, Vec<u8>)>,
}

/// The procedure of a symbol that is none of the step codes.
fn procedure_of(symbol: u8) -> Option<u8> {
    symbol.checked_sub(128)
}

impl Rules {
    /// The rules of a file whose records have this width.
    pub fn of(file: &[u8], width: usize) -> Rules {
        let rules = file.chunks(width).filter(|record| record[0] == 1);
        let rules = rules.map(|rule| (rule[1], rule[3..3 + usize::from(rule[2])].to_vec()));
        Rules { rules: rules.collect() }
    }

    /// The procedures in use, as a head or a symbol.
    pub fn in_use(&self) -> BTreeSet<u8> {
        let symbols = self
            .rules
            .iter()
            .flat_map(|(_, body)| body)
            .filter_map(|&symbol| procedure_of(symbol));
        self.rules.iter().map(|&(head, _)| head).chain(symbols).collect()
    }

    /// One above the highest procedure in use.
    pub fn free(&self) -> u8 {
        self.in_use().last().map_or(0, |highest| highest + 1)
    }

    /// The procedures that derive each stretch of a run of at most 64 steps, as bits, by the step where it begins and the one where it ends.
    pub fn derived(&self, run: &[u8]) -> Vec<Vec<u64>> {
        let mut known = vec![vec![0; run.len() + 1]; run.len() + 1];
        loop {
            let before = known.clone();
            for (head, body) in &self.rules {
                for begin in 0..=run.len() {
                    let ends = body
                        .iter()
                        .fold(vec![begin], |ends, &symbol| ends_after(&known, run, &ends, symbol));
                    ends.iter().for_each(|&end| known[begin][end] |= 1 << head);
                }
            }
            if known == before {
                return known;
            }
        }
    }

    /// Whether a procedure derives a run of at most 64 steps.
    pub fn derives(&self, procedure: u8, run: &[u8]) -> bool {
        self.derived(run)[0][run.len()] >> procedure & 1 == 1
    }

    /// The least height of a derivation from each procedure.
    pub fn heights(&self) -> [Option<usize>; 64] {
        let mut heights = [None; 64];
        for height in 1..=64 {
            let before = heights;
            for (head, body) in self
                .rules
                .iter()
                .filter(|(_, body)| height_above(&before, body) == Some(height))
            {
                let known = &mut heights[usize::from(*head)];
                *known = known.or(height_above(&before, body));
            }
        }
        heights
    }

    /// Adds a run that a procedure derives within a height to `run`; false if the run becomes too long.
    fn derive(&self, numbers: &mut Numbers, heights: &[Option<usize>; 64], head: u8, height: usize, run: &mut Vec<u8>) -> bool {
        let low = |body: &[u8]| height_above(heights, body).is_some_and(|least| least <= height);
        let bodies: Vec<&Vec<u8>> = self
            .rules
            .iter()
            .filter(|(of, body)| *of == head && low(body))
            .map(|(_, body)| body)
            .collect();
        numbers.pick(&bodies).iter().all(|&symbol| match procedure_of(symbol) {
            None => {
                run.push(symbol);
                run.len() <= 60
            }
            Some(inner) => self.derive(numbers, heights, inner, height - 1, run),
        })
    }

    /// A run of a procedure, if it has one and the one drawn is not too long.
    pub fn draw(&self, numbers: &mut Numbers, procedure: u8) -> Option<Vec<u8>> {
        let heights = self.heights();
        let height = heights[usize::from(procedure)]? + numbers.below(4);
        let mut run = Vec::new();
        self.derive(numbers, &heights, procedure, height, &mut run).then_some(run)
    }
}

/// Where a symbol can end that begins at one of `begins`.
fn ends_after(known: &[Vec<u64>], run: &[u8], begins: &[usize], symbol: u8) -> Vec<usize> {
    let ends = |begin: usize, end: usize| match procedure_of(symbol) {
        None => run[begin..end] == [symbol],
        Some(inner) => known[begin][end] >> inner & 1 == 1,
    };
    (0..=run.len())
        .filter(|&end| begins.iter().any(|&begin| begin <= end && ends(begin, end)))
        .collect()
}

/// One more than the greatest least height of a body's procedures, if each has one.
fn height_above(heights: &[Option<usize>; 64], body: &[u8]) -> Option<usize> {
    let inner = body.iter().filter_map(|&symbol| procedure_of(symbol));
    let below: Option<Vec<usize>> = inner.map(|procedure| heights[usize::from(procedure)]).collect();
    Some(1 + below?.into_iter().max().unwrap_or(0))
}
