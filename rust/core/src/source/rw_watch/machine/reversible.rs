//! A watch channel as a machine whose steps can be undone.
// From crates/rw_watch/src/machine/reversible.rt, with its contracts as comments. //+
//~ ghost use Rattle.std.specs.Prelude.{◌≡◌, ◌<◌};
//~ ghost use Rattle.rw_watch.specs.Shown.{weight, next, reply_of, patch_of};
//~ ghost use Rattle.rw_watch.specs.Laws.{IsDocumented};

use super::Watch;
use crate::source::rw_watch::calls::{WCall, WPatch, WReply};
use crate::source::rw_handles::{Found, MOST_HANDLES};
use crate::source::rw_law::{NoMemory, Reversible};

impl<V: Copy> Reversible for Watch<V> {
//~     ghost use Rattle.rw_watch.specs.Shown as step;
//~     ghost use Rattle.rw_watch.specs.Soundness.{watch_laws};

    type Call = WCall<V>;

    type Reply = WReply<V>;

    type Patch = WPatch<V>;

//~     ghost View = { step.Shown V };

//~     ghost shown = { λ machine. machine.shown };

//~     ghost reserved = { λ machine. machine.limit };

//~     ghost allowed = { λ x. step.IsAllowed x };

//~     ghost weigh = { step.weight };

//~     ghost next = { step.next };

//~     ghost reply_of = { step.reply_of };

//~     ghost patch_of = { step.patch_of };

//~     ghost back = { step.back };

//~     ghost fits = { step.Fits };

//~     ghost refuses = { step.refuses };

//~     ghost is_waiting = { step.waits };

//~     ghost is_straying = { step.strays };

//~     ghost laws = { watch_laws };

    /// Returns how many changes the receivers were notified of, plus how many handles were made.
    fn weight(&self) -> u64 {
        self.version + u64::from(self.handles.made())
    }

    fn limit(&self) -> u64 {
        self.limit
    }

    /// Makes room for n more changes and handles. The table grows by doubling, so a call before each step costs little.
    fn ready(&mut self, n: u64) -> Result<(), NoMemory> {
        let limit = self.weight() + n;
        if limit <= self.limit {
            return Ok(());
        }
        let handles = limit.min(MOST_HANDLES as u64) - u64::from(self.handles.made());
        self.handles.ready(handles)?;
        self.limit = limit;
        Ok(())
    }

    /// Makes a call, as documented, after checks of its handle and of the number of handles. For every record that shows what this
    /// machine shows, the reply is that of the record's step, and the machine shows what the record shows after its step.
    #[inline(always)]
    fn apply(&mut self, call: &WCall<V>) -> (WReply<V>, WPatch<V>)
//~         requires { weight self.old.shown < self.old.limit }
//~         ensures view { self.new.shown ≡ next self.old.shown call.now }
//~         ensures reply { result.0 ≡ reply_of self.old.shown call.now }
//~         ensures patch { result.1 ≡ patch_of self.old.shown call.now }
//~         ensures room { self.new.limit ≡ self.old.limit }
//~         ensures documented { IsDocumented self.old.shown call.now result.0 self.new.shown }
    {
        match self.handles.find(call.handle(), call.wanted()) {
            Found::Fault(fault) => self.keep(WReply::refused(fault)),
            Found::Handle(kind, mark) => {
                if call.makes() && self.handles.made() as usize >= MOST_HANDLES {
                    self.keep(WReply::TooManyHandles)
                } else {
                    self.perform(call, kind, mark)
                }
            }
        }
    }

    fn undo(&mut self, call: &WCall<V>, patch: &WPatch<V>) {
        match *patch {
            WPatch::Same => {}
            WPatch::Wrote { told, before } => self.unwrite(before, told),
            WPatch::Made => self.handles.unmake(),
            WPatch::Marked(mark) => self.handles.set(call.handle(), Some(mark)),
            WPatch::Unmarked => self.handles.set(call.handle(), None),
            WPatch::Left(kind, mark) => self.handles.undrop(call.handle(), kind, Some(mark)),
            WPatch::LeftUnmarked(kind) => self.handles.undrop(call.handle(), kind, None),
        }
    }

    #[inline(always)] //+
    fn waits(reply: &WReply<V>) -> bool {
        matches!(reply, WReply::Waits)
    }

    #[inline(always)] //+
    fn strays(_reply: &WReply<V>) -> bool {
        false
    }
}
