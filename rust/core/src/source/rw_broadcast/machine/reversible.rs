//! A broadcast channel as a machine whose steps can be undone.
// From crates/rw_broadcast/src/machine/reversible.rt, with its contracts as comments. //+
//~ ghost use Rattle.std.specs.Prelude.{◌≡◌, ◌<◌};
//~ ghost use Rattle.rw_broadcast.specs.Shown.{weight, next, reply_of, patch_of};
//~ ghost use Rattle.rw_broadcast.specs.Laws.{IsDocumented};

use super::Broadcast;
use crate::source::rw_broadcast::calls::{BCall, BPatch, BReply};
use crate::source::rw_handles::{Found, MOST_HANDLES};
use crate::source::rw_law::{NoMemory, Reversible};

impl<V: Copy> Reversible for Broadcast<V> {
//~     ghost use Rattle.rw_broadcast.specs.Shown as step;
//~     ghost use Rattle.rw_broadcast.specs.Soundness.{broadcast_laws};

    type Call = BCall<V>;

    type Reply = BReply<V>;

    type Patch = BPatch<V>;

//~     ghost View = { step.Shown V };

//~     ghost shown = { λ machine. machine.shown };

//~     ghost reserved = { λ machine. machine.limit };

//~     ghost allowed = { λ x. step.IsAllowed x };

//~     ghost weigh = { step.weight };

//~     ghost next = { step.next };

//~     ghost reply_of = { step.reply_of };

//~     ghost patch_of = { step.patch_of };

//~     ghost back = { step.back };

//~     ghost fits = { step.Fits };

//~     ghost refuses = { step.refuses };

//~     ghost is_waiting = { step.waits };

//~     ghost is_straying = { step.strays };

//~     ghost laws = { broadcast_laws };

    /// Returns how many values were sent, plus how many handles were made.
    fn weight(&self) -> u64 {
        self.values.count() + u64::from(self.handles.made())
    }

    fn limit(&self) -> u64 {
        self.limit
    }

    /// Makes room for n more handles. Room for the values is there from the opening on. The table grows by doubling, so a
    /// call before each step costs little.
    fn ready(&mut self, n: u64) -> Result<(), NoMemory> {
        let limit = self.weight() + n;
        if limit <= self.limit {
            return Ok(());
        }
        let handles = limit.min(MOST_HANDLES as u64) - u64::from(self.handles.made());
        self.handles.ready(handles)?;
        self.limit = limit;
        Ok(())
    }

    /// Makes a call, as documented, after checks of its handle and of the number of handles. For every record that shows what this
    /// machine shows, the reply is that of the record's step, and the machine shows what the record shows after its step.
    #[inline(always)]
    fn apply(&mut self, call: &BCall<V>) -> (BReply<V>, BPatch<V>)
//~         requires { weight self.old.shown < self.old.limit }
//~         ensures view { self.new.shown ≡ next self.old.shown call.now }
//~         ensures reply { result.0 ≡ reply_of self.old.shown call.now }
//~         ensures patch { result.1 ≡ patch_of self.old.shown call.now }
//~         ensures room { self.new.limit ≡ self.old.limit }
//~         ensures documented { IsDocumented self.old.shown call.now result.0 self.new.shown }
    {
        match self.handles.find(call.handle(), call.wanted()) {
            Found::Fault(fault) => self.keep(BReply::refused(fault)),
            Found::Handle(kind, position) => {
                if call.makes() && self.handles.made() as usize >= MOST_HANDLES {
                    self.keep(BReply::TooManyHandles)
                } else {
                    self.perform(call, kind, position)
                }
            }
        }
    }

    fn undo(&mut self, call: &BCall<V>, patch: &BPatch<V>) {
        match *patch {
            BPatch::Same => {}
            BPatch::Pushed => self.unsend(None),
            BPatch::Evicted(old) => self.unsend(Some(old)),
            BPatch::Made => self.handles.unmake(),
            BPatch::Moved(from) => self.handles.set(call.handle(), from),
            BPatch::Left(kind, position) => self.handles.undrop(call.handle(), kind, position),
        }
    }

    #[inline(always)] //+
    fn waits(reply: &BReply<V>) -> bool {
        matches!(reply, BReply::Waits)
    }

    #[inline(always)] //+
    fn strays(_reply: &BReply<V>) -> bool {
        false
    }
}
