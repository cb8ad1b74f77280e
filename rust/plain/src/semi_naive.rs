//! The working order by semi-naive evaluation: a candidate whose choices were all there in the pass before was formed in that pass, and has
//! been covered since. It is one join and nothing else, and such joins are counted at once, as many as follow each other.

use crate::effect::{Effect, Prepared};
use crate::file::{Body, Plan};
use crate::journal::{passes, Choice, Choices, Journal, Origin, Part, Search, Verdict, PROCEDURES};
use crate::known::Known;

/// Checks a plan as `search` does, with the same answer and the same rows, and forms only the candidates that the pass before didn't form.
pub fn search_semi_naive(plan: &Plan, starts: u64, limit: usize, budget: u64) -> Search {
    let journal = Journal::new(plan, starts, limit, budget);
    let mut known = vec![Known::default(); PROCEDURES];
    passes(plan, journal, |choices, journal| {
        let known = &mut known;
        Forming { journal, known }.one_pass(plan, choices)
    })
}

/// The journal of a check under way, and the effects that its rows have had, for each procedure.
struct Forming<'a> {
    journal: &'a mut Journal,
    known: &'a mut [Known],
}

/// How many rights a left must have for `Prepared` to pay.
const MANY_RIGHTS: usize = 4;

impl Forming<'_> {
    /// Goes through the rules in file order; an error is the verdict that stopped it.
    fn one_pass(&mut self, plan: &Plan, choices: &Choices) -> Result<(), Verdict> {
        for (number, rule) in plan.rules.iter().enumerate() {
            let origin = Origin {
                procedure: rule.procedure,
                rule: number as u16,
            };
            match rule.body {
                Body::Nothing if choices.first_pass() => {
                    self.consider(origin, Effect::IDENTITY, Choice::NONE, Choice::NONE)?;
                }
                Body::Nothing => self.journal.join_all(1)?,
                Body::One(only) => self.one_symbol(origin, choices.of(only))?,
                Body::Two(first, second) => self.two_symbols(origin, choices.of(first), choices.of(second))?,
            }
        }
        Ok(())
    }

    /// The candidates of a body of one symbol, which has these choices.
    fn one_symbol(&mut self, origin: Origin, lefts: Part) -> Result<(), Verdict> {
        self.journal.join_all(lefts.old)?;
        for &left in lefts.new_ones() {
            self.consider(origin, left.effect, left, Choice::NONE)?;
        }
        Ok(())
    }

    /// The candidates of a body of two symbols, which have these choices. Old choices stand before the new ones. So of an old left the old
    /// rights come first, and are counted at once; where no right is new, that goes for all old lefts together.
    fn two_symbols(&mut self, origin: Origin, lefts: Part, rights: Part) -> Result<(), Verdict> {
        let (old_lefts, new_lefts) = lefts.all.split_at(lefts.old);
        let new_rights = rights.new_ones();
        if new_rights.is_empty() {
            self.journal.join_all(old_lefts.len() * rights.old)?;
        } else {
            for &left in old_lefts {
                self.journal.join_all(rights.old)?;
                self.products(origin, left, new_rights)?;
            }
        }
        for &left in new_lefts {
            self.products(origin, left, rights.all)?;
        }
        Ok(())
    }

    /// The candidates of one left with some rights, none of which the pass before formed.
    fn products(&mut self, origin: Origin, left: Choice, rights: &[Choice]) -> Result<(), Verdict> {
        if rights.len() >= MANY_RIGHTS {
            return self.many_products(origin, left, rights);
        }
        for &right in rights {
            self.consider(origin, left.effect.then(right.effect), left, right)?;
        }
        Ok(())
    }

    /// The same, with the left prepared.
    #[inline(never)]
    fn many_products(&mut self, origin: Origin, left: Choice, rights: &[Choice]) -> Result<(), Verdict> {
        let prepared = Prepared::new(left.effect);
        for &right in rights {
            self.consider(origin, prepared.then(right.effect), left, right)?;
        }
        Ok(())
    }

    /// Counts a candidate, drops it if a live row covers it, and keeps any other. The effect that covered last is tried first, then an
    /// exact match.
    #[inline(always)]
    fn consider(&mut self, origin: Origin, effect: Effect, left: Choice, right: Choice) -> Result<(), Verdict> {
        self.journal.join()?;
        let procedure = usize::from(origin.procedure);
        if self.journal.live[procedure].covers_again(effect) || self.known[procedure].has(effect) {
            return Ok(());
        }
        self.look_and_keep(origin, effect, left, right)
    }

    /// Looks through the live rows for one that covers a candidate, and keeps it if there is none.
    #[inline(never)]
    fn look_and_keep(&mut self, origin: Origin, effect: Effect, left: Choice, right: Choice) -> Result<(), Verdict> {
        let procedure = usize::from(origin.procedure);
        if self.journal.live[procedure].look(effect) {
            return Ok(());
        }
        self.journal.keep(origin, effect, left, right)?;
        self.known[procedure].add(effect, &self.journal.live[procedure].effects);
        Ok(())
    }
}
