//! A machine that counts its calls, to compare with what its navigator counts.

use proved::rw_law::{NoMemory, Reversible};

/// Any machine, with the number of its `apply` and `undo` calls.
pub struct Metered<R: Reversible> {
    inner: R,
    calls: u64,
}

impl<R: Reversible> Metered<R> {
    pub fn new(inner: R) -> Metered<R> {
        Metered { inner, calls: 0 }
    }

    pub fn calls(&self) -> u64 {
        self.calls
    }
}

impl<R: Reversible> Reversible for Metered<R> {
    type Call = R::Call;

    type Reply = R::Reply;

    type Patch = R::Patch;

    fn weight(&self) -> u64 {
        self.inner.weight()
    }

    fn limit(&self) -> u64 {
        self.inner.limit()
    }

    fn ready(&mut self, n: u64) -> Result<(), NoMemory> {
        self.inner.ready(n)
    }

    fn apply(&mut self, call: &R::Call) -> (R::Reply, R::Patch) {
        self.calls = self.calls.saturating_add(1);
        self.inner.apply(call)
    }

    fn undo(&mut self, call: &R::Call, patch: &R::Patch) {
        self.calls = self.calls.saturating_add(1);
        self.inner.undo(call, patch)
    }

    fn waits(reply: &R::Reply) -> bool {
        R::waits(reply)
    }

    fn strays(reply: &R::Reply) -> bool {
        R::strays(reply)
    }
}
