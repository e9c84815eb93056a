//! The steps of a watch channel, by the table of calls.
// From crates/rw_watch/src/machine/steps.rt, with its contracts as comments. //+
//~ ghost use Rattle.std.specs.Prelude.{◌≡◌, ◌<◌, length, slice_get, Some, IsTrue};
//~ ghost use Rattle.rw_handles.specs.declared.kinds.Kind.TheVariants.{Receiver};
//~ ghost use Rattle.rw_handles.specs.declared.kinds.Slot.TheVariants.{Live};
//~ ghost use Rattle.rw_handles.specs.declared.kinds.Found.TheVariants.{Handle};
//~ ghost use Rattle.rw_handles.specs.Slots.{lookup};
//~ ghost use Rattle.rw_handles.specs.declared.table.TheConstants.{MOST_HANDLES};
//~ ghost use Rattle.rw_watch.specs.Channel.{Keep, Write, Make, Mark, Leave, receivers, has_no_receiver, is_unseen, send, see};
//~ ghost use Rattle.rw_watch.specs.Channel.{has_changed, wait_effect, await_closed, effect_with, handle_of, wanted_kind, makes};
//~ ghost use Rattle.rw_watch.specs.Shown.{CanUntell, IsAllowed, IsMark, IsMarked, weight, version_before};
//~ ghost use Rattle.rw_watch.specs.Machine.{Takes};

use super::Watch;
use crate::source::rw_watch::calls::{WCall, WPatch, WReply};
use crate::source::rw_handles::Kind;

impl<V: Copy> Watch<V> {
    /// Whether a receiver with this mark has not seen the value.
    #[inline(always)] //+
    pub(super) fn is_unseen(&self, mark: Option<u64>) -> bool
//~         ensures { result ≡ is_unseen self.now.shown.version mark }
    {
        match mark {
            None => true,
            Some(seen) => seen != self.version,
        }
    }

    /// Returns how many receivers are alive.
    #[inline(always)] //+
    fn receivers(&self) -> u64
//~         ensures { result ≡ receivers self.now.shown }
    {
        self.handles.alive(Kind::Receiver)
    }

    /// Whether no receiver is alive.
    #[inline(always)] //+
    fn has_no_receiver(&self) -> bool
//~         ensures { result ≡ has_no_receiver self.now.shown }
    {
        self.receivers() == 0
    }

    /// Changes nothing, and returns this reply.
    #[inline(always)] //+
    pub(super) fn keep(&self, reply: WReply<V>) -> (WReply<V>, WPatch<V>)
//~         ensures { Takes self.now self.now result (Keep, reply) }
    {
        (reply, WPatch::Same)
    }

    /// Writes a value, and notifies the receivers if `told`.
    #[inline(always)] //+
    fn write(&mut self, value: V, told: bool, reply: WReply<V>) -> (WReply<V>, WPatch<V>)
//~         requires { weight self.old.shown < self.old.limit }
//~         ensures { Takes self.old self.new result (Write value told, reply) }
    {
        let before = self.value;
        self.value = value;
        if told {
            self.version += 1;
        }
        (reply, WPatch::Wrote { told, before })
    }

    /// Makes the handle of the next number.
    #[inline(always)] //+
    fn make(&mut self, kind: Kind, mark: Option<u64>) -> (WReply<V>, WPatch<V>)
//~         requires few { length self.old.shown.slots < MOST_HANDLES }
//~         requires room { weight self.old.shown < self.old.limit }
//~         requires marked { IsAllowed self.old.shown → IsMarked self.old.shown.version (Live kind mark) }
//~         ensures { Takes self.old self.new result (Make kind mark, WReply.New (length self.old.shown.slots)) }
    {
        let made = self.handles.make(kind, mark);
        (WReply::New(made), WPatch::Made)
    }

    /// Sets a receiver's mark.
    #[inline(always)] //+
    fn mark_as(
        &mut self,
        handle: u32,
        from: Option<u64>,
        to: Option<u64>,
        reply: WReply<V>,
    ) -> (WReply<V>, WPatch<V>)
//~         requires here { slice_get self.old.shown.slots handle ≡ Some (Live Receiver from) }
//~         requires mark { IsMark self.old.shown.version to }
//~         ensures { Takes self.old self.new result (Mark handle from to, reply) }
    {
        self.handles.set(handle, to);
        (reply, WPatch::of_mark(from))
    }

    /// Marks the current value as seen by a receiver.
    #[inline(always)] //+
    fn see(&mut self, handle: u32, from: Option<u64>, reply: WReply<V>) -> (WReply<V>, WPatch<V>)
//~         requires { slice_get self.old.shown.slots handle ≡ Some (Live Receiver from) }
//~         ensures { Takes self.old self.new result (see self.old.shown handle from, reply) }
    {
        self.mark_as(handle, from, Some(self.version), reply)
    }

    /// Drops a handle.
    #[inline(always)] //+
    fn leave(&mut self, handle: u32, kind: Kind, mark: Option<u64>) -> (WReply<V>, WPatch<V>)
//~         requires { slice_get self.old.shown.slots handle ≡ Some (Live kind mark) }
//~         ensures { Takes self.old self.new result (Leave handle kind mark, WReply.Dropped) }
    {
        let _dropped = self.handles.drop_one(handle);
        (WReply::Dropped, WPatch::of_drop(kind, mark))
    }

    /// Sends a value, if there is a receiver.
    #[inline(always)] //+
    fn send(&mut self, value: V) -> (WReply<V>, WPatch<V>)
//~         requires { weight self.old.shown < self.old.limit }
//~         ensures { Takes self.old self.new result (send self.old.shown value) }
    {
        if self.has_no_receiver() {
            return self.keep(WReply::NoReceivers(value));
        }
        self.write(value, true, WReply::Stored)
    }

    /// Returns the reply to `HasChanged`, for a receiver with this mark.
    #[inline(always)] //+
    fn has_changed(&self, mark: Option<u64>) -> WReply<V>
//~         ensures { result ≡ has_changed self.now.shown mark }
    {
        if self.closed() {
            WReply::Closed
        } else {
            WReply::Flag(self.is_unseen(mark))
        }
    }

    /// Makes a call of `Changed`: a value that the receiver has not seen is marked as seen.
    #[inline(always)] //+
    fn changed(&mut self, handle: u32, mark: Option<u64>) -> (WReply<V>, WPatch<V>)
//~         requires { slice_get self.old.shown.slots handle ≡ Some (Live Receiver mark) }
//~         ensures { Takes self.old self.new result (wait_effect self.old.shown handle mark) }
    {
        if self.is_unseen(mark) {
            self.see(handle, mark, WReply::Done)
        } else if self.closed() {
            self.keep(WReply::Closed)
        } else {
            self.keep(WReply::Waits)
        }
    }

    /// Returns the reply to `AwaitClosed`.
    fn await_closed(&self) -> WReply<V>
//~         ensures { result ≡ await_closed self.now.shown }
    {
        if self.has_no_receiver() {
            WReply::Done
        } else {
            WReply::Waits
        }
    }

    /// Makes a call with the live handle that was found.
    #[inline(always)]
    pub(super) fn perform(
        &mut self,
        call: &WCall<V>,
        kind: Kind,
        mark: Option<u64>,
    ) -> (WReply<V>, WPatch<V>)
//~         requires room { weight self.old.shown < self.old.limit }
//~         requires found { lookup (wanted_kind call.now) self.old.shown.slots (handle_of call.now) ≡ Handle kind mark }
//~         requires few { IsTrue (makes call.now) → length self.old.shown.slots < MOST_HANDLES }
//~         ensures { Takes self.old self.new result (effect_with self.old.shown call.now kind mark) }
    {
        match *call {
            WCall::Send(_, value) => self.send(value),
            WCall::SendReplace(_, value) => self.write(value, true, WReply::Old(self.value)),
            WCall::Modify { told, value, .. } => self.write(value, told, WReply::Told(told)),
            WCall::Subscribe(_) => self.make(Kind::Receiver, Some(self.version)),
            WCall::CloneSender(_) => self.make(Kind::Sender, None),
            WCall::CloneReceiver(_) => self.make(Kind::Receiver, mark),
            WCall::Borrow(_) => self.keep(WReply::Value(self.value)),
            WCall::Update(handle) => self.see(handle, mark, WReply::Value(self.value)),
            WCall::HasChanged(_) => self.keep(self.has_changed(mark)),
            WCall::Changed(handle) => self.changed(handle, mark),
            WCall::MarkChanged(handle) => self.mark_as(handle, mark, None, WReply::Done),
            WCall::MarkUnchanged(handle) => self.see(handle, mark, WReply::Done),
            WCall::DropHandle(handle) => self.leave(handle, kind, mark),
            WCall::ReceiverCount(_) => self.keep(WReply::Count(self.receivers())),
            WCall::IsClosed(_) => self.keep(WReply::Flag(self.has_no_receiver())),
            WCall::AwaitClosed(_) => self.keep(self.await_closed()),
        }
    }

    /// Undoes the last write, given the value before it.
    pub(super) fn unwrite(&mut self, before: V, told: bool)
//~         requires { IsTrue told → CanUntell self.old.shown }
//~         ensures shown { self.new.shown ≡ record self.old.shown { version = version_before self.old.shown.version told; value = before } }
//~         ensures room { self.new.limit ≡ self.old.limit }
    {
        self.value = before;
        if told {
            self.version -= 1;
        }
    }
}
