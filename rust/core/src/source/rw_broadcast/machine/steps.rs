//! The steps of a broadcast channel, by the table of calls.
// From crates/rw_broadcast/src/machine/steps.rt, with its contracts as comments. //+
//~ ghost use Rattle.std.specs.Prelude.{◌≡◌, ◌-◌, ◌<◌, ◌≤◌, length, slice_get, Some, IsTrue, is_some, nat_lt};
//~ ghost use Rattle.rw_handles.specs.declared.kinds.Kind.TheVariants.{Receiver};
//~ ghost use Rattle.rw_handles.specs.declared.kinds.Slot.TheVariants.{Live};
//~ ghost use Rattle.rw_handles.specs.declared.kinds.Found.TheVariants.{Handle};
//~ ghost use Rattle.rw_handles.specs.Slots.{lookup};
//~ ghost use Rattle.rw_handles.specs.declared.table.TheConstants.{MOST_HANDLES};
//~ ghost use Rattle.rw_broadcast.specs.Channel.{Keep, Make, Move, Leave, send, read, receive, upgrade};
//~ ghost use Rattle.rw_broadcast.specs.Channel.{effect_with, handle_of, wanted_kind, makes, oldest, receivers};
//~ ghost use Rattle.rw_broadcast.specs.Shown.{CanUnsend, IsPlaced, channel_of, weight};
//~ ghost use Rattle.rw_ring.specs.Windows.{window_before};
//~ ghost use Rattle.rw_broadcast.specs.Machine.{Takes};

use super::Broadcast;
use crate::source::rw_broadcast::calls::{BCall, BPatch, BReply};
use crate::source::rw_handles::Kind;

impl<V: Copy> Broadcast<V> {
    /// Returns how many receivers are alive.
    #[inline(always)] //+
    fn receivers(&self) -> u64
//~         ensures { result ≡ receivers (channel_of self.now.shown) }
    {
        self.handles.alive(Kind::Receiver)
    }

    /// Changes nothing, and returns this reply.
    #[inline(always)] //+
    pub(super) fn keep(&self, reply: BReply<V>) -> (BReply<V>, BPatch<V>)
//~         ensures { Takes self.now self.now result (Keep, reply) }
    {
        (reply, BPatch::Same)
    }

    /// Makes the handle of the next number.
    #[inline(always)] //+
    fn make(&mut self, kind: Kind, position: u64) -> (BReply<V>, BPatch<V>)
//~         requires few { length self.old.shown.slots < MOST_HANDLES }
//~         requires room { weight self.old.shown < self.old.limit }
//~         requires placed { IsPlaced self.old.shown.sent (Live kind position) }
//~         ensures { Takes self.old self.new result (Make kind position, BReply.New (length self.old.shown.slots)) }
    {
        let made = self.handles.make(kind, position);
        (BReply::New(made), BPatch::Made)
    }

    /// Moves a receiver from one position to another.
    #[inline(always)]
    pub(super) fn move_receiver(
        &mut self,
        handle: u32,
        from: u64,
        to: u64,
        reply: BReply<V>,
    ) -> (BReply<V>, BPatch<V>)
//~         requires here { slice_get self.old.shown.slots handle ≡ Some (Live Receiver from) }
//~         requires within { to ≤ self.old.shown.sent }
//~         ensures { Takes self.old self.new result (Move handle from to, reply) }
    {
        self.handles.set(handle, to);
        (reply, BPatch::Moved(from))
    }

    /// Drops a handle.
    #[inline(always)] //+
    fn leave(&mut self, handle: u32, kind: Kind, position: u64) -> (BReply<V>, BPatch<V>)
//~         requires { slice_get self.old.shown.slots handle ≡ Some (Live kind position) }
//~         ensures { Takes self.old self.new result (Leave handle kind position, BReply.Dropped) }
    {
        let _dropped = self.handles.drop_one(handle);
        (BReply::Dropped, BPatch::Left(kind, position))
    }

    /// Sends a value, if there is a receiver.
    #[inline(always)]
    fn send(&mut self, value: V) -> (BReply<V>, BPatch<V>)
//~         requires { weight self.old.shown < self.old.limit }
//~         ensures { Takes self.old self.new result (send (channel_of self.old.shown) value) }
    {
        let receivers = self.receivers();
        if receivers == 0 {
            return self.keep(BReply::NoReceivers(value));
        }
        let evicted = self.values.put(value);
        (BReply::Sent(receivers), BPatch::of_send(evicted))
    }

    /// Receives the value at a receiver's position, if there is one.
    #[inline(always)]
    fn read(&mut self, handle: u32, position: u64, nothing: BReply<V>) -> (BReply<V>, BPatch<V>)
//~         requires here { slice_get self.old.shown.slots handle ≡ Some (Live Receiver position) }
//~         requires retained { oldest (channel_of self.old.shown) ≤ position }
//~         ensures { Takes self.old self.new result (read (channel_of self.old.shown) handle position ((channel_of self.old.shown).value position) nothing) }
    {
        match self.values.at(position) {
            Some(value) => self.move_receiver(handle, position, position + 1, BReply::Value(value)),
            None => {
                if self.closed() {
                    self.keep(BReply::Closed)
                } else {
                    self.keep(nothing)
                }
            }
        }
    }

    /// Receives a receiver's next value, or reports its lag. `nothing` is the reply where there is no value yet.
    #[inline(always)]
    fn receive(&mut self, handle: u32, position: u64, nothing: BReply<V>) -> (BReply<V>, BPatch<V>)
//~         requires { slice_get self.old.shown.slots handle ≡ Some (Live Receiver position) }
//~         ensures { Takes self.old self.new result (receive (channel_of self.old.shown) handle position nothing) }
    {
        let oldest = self.oldest();
        if position < oldest {
            self.move_receiver(handle, position, oldest, BReply::Lagged(oldest - position))
        } else {
            self.read(handle, position, nothing)
        }
    }

    /// Upgrades a weak sender to a sender, if there is a sender.
    fn upgrade(&mut self) -> (BReply<V>, BPatch<V>)
//~         requires few { length self.old.shown.slots < MOST_HANDLES }
//~         requires room { weight self.old.shown < self.old.limit }
//~         ensures { Takes self.old self.new result (upgrade (channel_of self.old.shown)) }
    {
        if self.closed() {
            self.keep(BReply::NoSender)
        } else {
            self.make(Kind::Sender, 0)
        }
    }

    /// Makes a call with the live handle that was found.
    #[inline(always)]
    pub(super) fn perform(
        &mut self,
        call: &BCall<V>,
        kind: Kind,
        position: u64,
    ) -> (BReply<V>, BPatch<V>)
//~         requires room { weight self.old.shown < self.old.limit }
//~         requires found { lookup (wanted_kind call.now) self.old.shown.slots (handle_of call.now) ≡ Handle kind position }
//~         requires few { IsTrue (makes call.now) → length self.old.shown.slots < MOST_HANDLES }
//~         ensures { Takes self.old self.new result (effect_with (channel_of self.old.shown) call.now kind position) }
    {
        let sent = self.values.count();
        match *call {
            BCall::Send(_, value) => self.send(value),
            BCall::Subscribe(_) => self.make(Kind::Receiver, sent),
            BCall::CloneSender(_) => self.make(Kind::Sender, 0),
            BCall::Resubscribe(_) => self.make(Kind::Receiver, sent),
            BCall::TryRecv(handle) => self.receive(handle, position, BReply::Empty),
            BCall::Recv(handle) => self.receive(handle, position, BReply::Waits),
            BCall::DropHandle(handle) => self.leave(handle, kind, position),
            BCall::SenderLen(_) => self.keep(BReply::Count(self.queued())),
            BCall::ReceiverCount(_) => self.keep(BReply::Count(self.receivers())),
            BCall::ReceiverLen(_) => self.keep(BReply::Count(sent - position)),
            BCall::Downgrade(_) => self.make(Kind::Weak, 0),
            BCall::Upgrade(_) => self.upgrade(),
            BCall::CloneWeak(_) => self.make(Kind::Weak, 0),
        }
    }

    /// Undoes the last send, given the value that it evicted.
    pub(super) fn unsend(&mut self, evicted: Option<V>)
//~         requires some { CanUnsend self.old.shown }
//~         requires evicted { is_some evicted ≡ nat_lt self.old.shown.capacity self.old.shown.sent }
//~         ensures shown { self.new.shown ≡ record self.old.shown { sent = self.old.shown.sent - 1; window = window_before evicted self.old.shown.window } }
//~         ensures room { self.new.limit ≡ self.old.limit }
    {
        self.values.unput(evicted);
    }
}
