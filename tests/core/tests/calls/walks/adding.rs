//! A sum whose steps can be undone.

use proved::rw_law::{NoMemory, Reversible};

/// A sum of what was added, which stops at the greatest `u64`.
pub struct Adder {
    sum: u64,
    limit: u64,
}

impl Adder {
    pub fn new() -> Adder {
        Adder { sum: 0, limit: 0 }
    }

    pub fn sum(&self) -> u64 {
        self.sum
    }
}

impl Reversible for Adder {
    /// What to add.
    type Call = u64;

    /// The sum after it.
    type Reply = u64;

    /// How much was really added.
    type Patch = u64;

    fn weight(&self) -> u64 {
        let _sum = self.sum;
        0
    }

    fn limit(&self) -> u64 {
        self.limit
    }

    fn ready(&mut self, n: u64) -> Result<(), NoMemory> {
        self.limit = self.limit.max(n);
        Ok(())
    }

    fn apply(&mut self, call: &u64) -> (u64, u64) {
        let before = self.sum;
        self.sum = before.saturating_add(*call);
        (self.sum, self.sum - before)
    }

    fn undo(&mut self, _call: &u64, patch: &u64) {
        self.sum -= *patch;
    }

    fn waits(_reply: &u64) -> bool {
        false
    }

    fn strays(_reply: &u64) -> bool {
        false
    }
}
