//! How much the lead of a window needs at most.
// From crates/rw_recording/src/needs.rt, with its contracts as comments. //+

//~ ghost use Rattle.std.specs.Prelude.{◌≡◌, ◌⊎◌, length};
//~ ghost use Rattle.rw_world.specs.Machines.{of_chan};
//~ ghost use Rattle.rw_recording.specs.NoLeads.{live_in, AsksFor, IsMostOf, MaySend};

use crate::source::rw_recording::channels::{asks, live_on, retained_on, unread_on};
use crate::source::rw_recording::kept::Kept;
use crate::source::rw_recording::recording::RecordedCall;
use crate::source::rw_journal::CallForm;
use crate::source::rw_world::{Chan, ChanCall};

/// Returns how many values a receiver has to receive, if the call asks it, or 0.
fn asked_for(base: &Chan<u64>, call: &ChanCall<u64>) -> u64
//~     ensures { (result ≡ 0) ⊎ AsksFor (of_chan.shown base.now) result call.now }
{
    if !asks(call) {
        return 0;
    }
    unread_on(base, call.handle()).unwrap_or(0)
}

/// Returns how many values a broadcast retains, and one more, or how many a receiver has to receive that a call asks, if that is more.
fn most_sent(base: &Chan<u64>, calls: &[RecordedCall]) -> u64
//~     ensures { IsMostOf (of_chan.shown base.now) calls.now (length calls.now) result }
{
    let mut most = retained_on(base).saturating_add(1);
    for i in 0..calls.len() {
        let call = calls[i].call.to_call();
        most = most.max(asked_for(base, &call));
    }
    most
}

impl Kept {
    /// Returns how many handles are alive before the kept calls.
    pub(crate) fn live(&self) -> u64
//~         ensures { result ≡ live_in self.now.before }
    {
        live_on(&self.base)
    }

    /// Returns how many values a lead sends at most.
    pub(crate) fn most_sent(&self) -> u64
//~         ensures { MaySend self.now result }
    {
        most_sent(&self.base, &self.calls)
    }
}
