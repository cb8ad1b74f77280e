//! Effects: sets of stage pairs.

/// A set of stage pairs in four words: the pair (a, b) is bit 16a + b of the four together, so each word has four stages' rows of
/// sixteen bits.
#[derive(Clone, Copy, Debug, PartialEq, Eq)]
pub struct Effect(pub [u64; 4]);

/// The lowest bit of each row.
const LOWEST: u64 = 0x0001_0001_0001_0001;

/// Each row whose lowest bit is set, whole.
fn spread(rows: u64) -> u64 {
    let lowest = rows & LOWEST;
    (lowest << 16).wrapping_sub(lowest)
}

impl Effect {
    /// No pair: the effect of a code without moves.
    pub const EMPTY: Effect = Effect([0; 4]);

    /// Every (a, a): the effect of the empty run.
    pub const IDENTITY: Effect = Effect([
        0x0008_0004_0002_0001,
        0x0080_0040_0020_0010,
        0x0800_0400_0200_0100,
        0x8000_4000_2000_1000,
    ]);

    /// This effect with the pair (from, to) added.
    pub fn with(mut self, from: u8, to: u8) -> Effect {
        self.0[usize::from(from >> 2)] |= 1 << (16 * (from & 3) + to);
        self
    }

    /// The stages that `from` leads to, a bit for each.
    pub fn from_stage(self, from: usize) -> u16 {
        (self.0[from >> 2] >> (16 * (from & 3))) as u16
    }

    /// Relational composition. For each middle stage, its row is put into the row of each stage that leads to it.
    #[inline]
    pub fn then(self, next: Effect) -> Effect {
        let mut rest = self.0;
        let mut joined = [0; 4];
        for rows in next.0 {
            if rows != 0 {
                let row = |middle: u32| (rows >> (16 * middle) & 0xffff) * LOWEST;
                let (r0, r1, r2, r3) = (row(0), row(1), row(2), row(3));
                for (into, x) in joined.iter_mut().zip(rest) {
                    *into |= spread(x) & r0 | spread(x >> 1) & r1 | spread(x >> 2) & r2 | spread(x >> 3) & r3;
                }
            }
            rest = rest.map(|x| x >> 4);
        }
        Effect(joined)
    }

    /// Whether every pair of this effect is one of `other`.
    #[inline]
    pub fn within(self, other: Effect) -> bool {
        let outside = |word: usize| self.0[word] & !other.0[word];
        outside(0) | outside(1) == 0 && outside(2) | outside(3) == 0
    }

    /// Whether no pair leads from stage 0 to a finishing stage.
    pub fn rejects(self, finishing: u16) -> bool {
        self.from_stage(0) & finishing == 0
    }

    /// The number of pairs.
    pub fn pairs(self) -> u32 {
        self.0.iter().map(|word| word.count_ones()).sum()
    }
}

/// An effect prepared for composition with many others: for each middle stage, the rows of stages that lead to it, whole.
pub(crate) struct Prepared([[u64; 4]; 16]);

impl Prepared {
    pub fn new(effect: Effect) -> Prepared {
        Prepared(std::array::from_fn(|middle| effect.0.map(|x| spread(x >> middle))))
    }

    /// The prepared effect, then `next`, as `Effect::then` says it.
    #[inline]
    pub fn then(&self, next: Effect) -> Effect {
        let mut joined = [0; 4];
        for (rows, leading) in next.0.into_iter().zip(self.0.chunks_exact(4)) {
            if rows != 0 {
                for (middle, leading) in leading.iter().enumerate() {
                    let row = (rows >> (16 * middle) & 0xffff) * LOWEST;
                    joined
                        .iter_mut()
                        .zip(leading)
                        .for_each(|(into, leading)| *into |= leading & row);
                }
            }
        }
        Effect(joined)
    }
}

#[cfg(test)]
mod tests {
    use super::{Effect, Prepared};

    fn has(e: Effect, a: u8, b: u8) -> bool {
        e.from_stage(a.into()) >> b & 1 == 1
    }

    /// Composition pair by pair, as the paper says it.
    fn slowly(x: Effect, y: Effect) -> Effect {
        let mut joined = Effect::EMPTY;
        for a in 0..16 {
            for b in 0..16 {
                if (0..16).any(|m| has(x, a, m) && has(y, m, b)) {
                    joined = joined.with(a, b);
                }
            }
        }
        joined
    }

    #[test]
    fn composition_is_pair_by_pair() {
        let mut state = 0x9e37_79b9_7f4a_7c15_u64;
        let mut word = || {
            state = state
                .wrapping_mul(0xbf58_476d_1ce4_e5b9)
                .rotate_left(29)
                .wrapping_add(0x94d0_49bb_1331_11eb);
            state
        };
        for _ in 0..2_000 {
            let mut any = || Effect([word(), word(), word(), word()]);
            let (x, y, z) = (any(), any(), any());
            let common = |e: Effect, f: Effect| Effect([0, 1, 2, 3].map(|k| e.0[k] & f.0[k]));
            for (e, f) in [(x, y), (common(x, y), common(y, z))] {
                assert_eq!(e.then(f), slowly(e, f));
                assert_eq!(Prepared::new(e).then(f), slowly(e, f));
                assert_eq!(e.then(Effect::IDENTITY), e);
                assert_eq!(Effect::IDENTITY.then(e), e);
            }
        }
    }
}
