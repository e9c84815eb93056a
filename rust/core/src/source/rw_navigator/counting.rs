//! A machine whose calls are counted.
// From crates/rw_navigator/src/counting.rt, with its contracts as comments. //+

//~ ghost use Rattle.std.specs.Prelude.{◌≡◌, ◌<◌};
//~ ghost use Rattle.rw_navigator.specs.Counted.{count_after};

use crate::source::rw_law::Reversible;
//~ use std::marker::Model;

/// A machine with a count of its calls. Only shared references to the machine are given out, so no call goes uncounted.
//~ #[derive(Drop)]
pub struct Counted<R> {
    machine: R,
    count: u64,
}

//~ impl<R> Model for Counted<R> {
//~     ghost use Rattle.rw_navigator.specs.Counted.{Counted as Seen};
//~
//~     ghost Value = { Seen R };
//~
//~     ghost view = { λ a. record { state = a.machine; turns = a.count } };
//~ }

impl<R> Counted<R> {
    /// Wraps a machine, with no call counted yet.
    pub fn new(machine: R) -> Counted<R>
//~         ensures machine { result.state ≡ machine }
//~         ensures turns { result.turns ≡ 0 }
    {
        Counted { machine, count: 0 }
    }

    /// Returns the machine as it is now.
    pub fn state(&self) -> &R
//~         ensures { result.now ≡ self.now.state }
    {
        &self.machine
    }

    /// Returns the number of calls of `apply` and `undo`. The count stops at the greatest `u64`.
    pub fn turns(&self) -> u64
//~         ensures { result ≡ self.now.turns }
    {
        self.count
    }
}

impl<R: Reversible> Counted<R> {
    /// Calls the machine's `apply`, and counts it.
    pub fn apply(&mut self, call: &R::Call) -> (R::Reply, R::Patch)
//~         requires { R.weigh (R.shown self.old.state) < R.reserved self.old.state }
//~         ensures view { R.shown self.new.state ≡ R.next (R.shown self.old.state) call.now }
//~         ensures reply { result.0 ≡ R.reply_of (R.shown self.old.state) call.now }
//~         ensures patch { result.1 ≡ R.patch_of (R.shown self.old.state) call.now }
//~         ensures room { R.reserved self.new.state ≡ R.reserved self.old.state }
//~         ensures turns { self.new.turns ≡ count_after self.old.turns 1 }
    {
        self.count = self.count.saturating_add(1);
        self.machine.apply(call)
    }

    /// Calls the machine's `undo`, and counts it.
    pub fn undo(&mut self, call: &R::Call, patch: &R::Patch)
//~         requires { R.fits (R.shown self.old.state) call.now patch.now }
//~         ensures view { R.shown self.new.state ≡ R.back (R.shown self.old.state) call.now patch.now }
//~         ensures room { R.reserved self.new.state ≡ R.reserved self.old.state }
//~         ensures turns { self.new.turns ≡ count_after self.old.turns 1 }
    {
        self.count = self.count.saturating_add(1);
        self.machine.undo(call, patch)
    }
}
