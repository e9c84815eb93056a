//! A condition on amounts and sums, to search for.

use crate::walks::adding::Adder;
use proved::rw_law::Entry;
use proved::rw_navigator::Probe;

/// The amount of an entry, or else the sum, is even or odd.
#[derive(Clone, Copy, Debug)]
pub struct Parity {
    pub of_amount: bool,
    /// 0 for even, 1 for odd.
    pub remainder: u64,
}

impl Probe<Adder> for Parity {
    fn on_step(&self) -> bool {
        self.of_amount
    }

    fn step(&self, entry: &Entry<Adder>) -> bool {
        entry.call % 2 == self.remainder
    }

    fn state(&self, state: &Adder) -> bool {
        state.sum() % 2 == self.remainder
    }
}
