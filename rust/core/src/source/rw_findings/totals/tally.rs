//! What is counted of a channel of either kind while its entries are passed.
// From crates/rw_findings/src/totals/tally.rt, with its contracts as comments. //+

//~ ghost use Rattle.std.specs.Prelude.{◌≡◌, OnOk, Option};
//~ ghost use Rattle.rw_findings.specs.Tallies.{counts_in, HasRoom, made_in, with_reply};

use super::broadcast::BroadcastTally;
use super::total::Counts;
use super::watch::WatchTally;
use crate::source::rw_law::NoMemory;
use crate::source::rw_world::{ChanCall, ChanReply, Spec};
use crate::shim::alloc::Global;

/// The receivers of a channel.
//~ #[derive(Drop)]
pub(super) enum Tally {
    Broadcast(BroadcastTally),
    Watch(WatchTally),
}

impl Tally {
    /// Returns how many handles were made.
    pub(super) fn made(&self) -> usize
//~         ensures { result ≡ made_in self.now }
    {
        match self {
            Tally::Broadcast(tally) => tally.made(),
            Tally::Watch(tally) => tally.made(),
        }
    }

    /// Counts a call with this reply, which leads to this place.
    pub(super) fn count_call<V: Copy>(
        &mut self,
        call: &ChanCall<V>,
        reply: &ChanReply<V>,
        place: u64,
    ) -> Result<(), NoMemory>
//~         requires { HasRoom self.old }
//~         ensures { OnOk result (self.new ≡ with_reply self.old call.now reply.now place) }
    {
        match (self, call, reply) {
            (Tally::Broadcast(tally), ChanCall::B(call), ChanReply::B(reply)) => {
                tally.count_call(call, reply, place)
            }
            (Tally::Watch(tally), ChanCall::W(call), ChanReply::W(reply)) => {
                tally.count_call(call, reply)
            }
            _ => Ok(()),
        }
    }

    /// Returns the counts of a receiver, if the handle ever was a receiver.
    pub(super) fn counts(&self, handle: u32) -> Option<Counts>
//~         requires { HasRoom self.now }
//~         ensures { result ≡ counts_in self.now handle }
    {
        match self {
            Tally::Broadcast(tally) => Some(Counts::Broadcast(tally.counts(handle)?)),
            Tally::Watch(tally) => Some(Counts::Watch(tally.counts(handle)?)),
        }
    }
}
