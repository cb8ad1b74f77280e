//! The effects that rows have had, for an exact match.

use crate::effect::Effect;

/// Below this number of live rows, looking through them is as fast.
const FEW: usize = 8;

/// Effects that rows of one procedure have had. A candidate with such an effect is covered, by that row or by the one that retired it.
///
/// They stand in cells, each in the first free one from the cell that its digest gives. The number of cells is a power of two, and at most
/// a quarter of them is filled; before it would be more, the cells are made anew, for the live rows alone.
#[derive(Clone)]
pub(crate) struct Known {
    /// None while the procedure has few rows.
    cells: Vec<Effect>,
    /// What stands in a free cell. It is itself an effect that a row has had, so there is no harm in finding it.
    free: Effect,
    filled: usize,
}

impl Default for Known {
    fn default() -> Known {
        Known {
            cells: Vec::new(),
            free: Effect::EMPTY,
            filled: 0,
        }
    }
}

impl Known {
    /// Whether `effect` is here. That it isn't says nothing.
    #[inline]
    pub fn has(&self, effect: Effect) -> bool {
        !self.cells.is_empty() && self.cells[self.cell_of(effect)] == effect
    }

    /// Adds the effect of a new row, which is one of the procedure's `live` ones.
    pub fn add(&mut self, effect: Effect, live: &[Effect]) {
        if 4 * self.filled < self.cells.len() {
            self.put(effect);
        } else if live.len() >= FEW {
            self.free = effect;
            self.filled = 0;
            self.cells.clear();
            self.cells.resize((8 * live.len()).next_power_of_two(), effect);
            live.iter().for_each(|&live| self.put(live));
        }
    }

    fn put(&mut self, effect: Effect) {
        let cell = self.cell_of(effect);
        self.cells[cell] = effect;
        self.filled += 1;
    }

    /// The cell that has `effect`, or a free one for it.
    #[inline]
    fn cell_of(&self, effect: Effect) -> usize {
        let last = self.cells.len() - 1;
        let mut cell = digest(effect) & last;
        while self.cells[cell] != effect && self.cells[cell] != self.free {
            cell = (cell + 1) & last;
        }
        cell
    }
}

/// A number that differs for most effects: a product of their words, each times an odd number of its own, with its two halves folded together.
#[inline]
fn digest(effect: Effect) -> usize {
    let [a, b, c, d] = effect.0;
    let mixed =
        a ^ b.wrapping_mul(0xd1b5_4a32_d192_ed03) ^ c.wrapping_mul(0xaef1_7502_b73b_9a4d) ^ d.wrapping_mul(0x8cb9_2ba7_2f3d_8dd7);
    let product = u128::from(mixed) * 0x9e37_79b9_7f4a_7c15;
    (product >> 64 ^ product) as usize
}
