//! Numbers that look random and are the same on every machine.

use std::cell::Cell;

/// A linear congruence, of which the high bits are used. It stands in a cell so that what is chosen among can be drawn
/// from it too.
pub struct Chance(Cell<u64>);

impl Chance {
    pub fn new(seed: u64) -> Chance {
        Chance(Cell::new(seed))
    }

    /// A number below `n`, of the type that is wanted.
    pub fn below<N: TryFrom<u64>>(&self, n: u64) -> N {
        let product = self.0.get().wrapping_mul(6_364_136_223_846_793_005);
        let state = product.wrapping_add(1_442_695_040_888_963_407);
        self.0.set(state);
        N::try_from((state >> 33) % n).ok().expect("a number below n fits")
    }

    /// True once in `n` times.
    pub fn one_in(&self, n: u64) -> bool {
        self.below::<u64>(n) == 0
    }

    pub fn among<T: Clone>(&self, choices: &[T]) -> T {
        choices[self.below::<usize>(choices.len() as u64)].clone()
    }

    pub fn bytes(&self, count: usize) -> Vec<u8> {
        (0..count).map(|_| self.below(256)).collect()
    }
}
