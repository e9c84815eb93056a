//! Calls, which are made while the channel is locked.

use super::receivers::WEAK_SLOT;
use super::{
    Access, Call, CallSite, ChannelState, CoreChannel, DropStep, ListedCall, NO_SLOT,
    RecordedChannel, Send, Slot,
};
use crate::channels::actors::{self, CallerNumber};
use crate::channels::backend::{Actor, Caller};
use crate::channels::channel_lock::ChannelGuard;
use crate::channels::events::{Close, Event, Lag};
use crate::channels::handle::Kind;
use crate::channels::recorder::{DumpRequest, Shared};
use crate::channels::results::ReplyResult;
use crate::channels::turns::Permit;
use crate::channels::wait::{Awaited, Look, Method, Wait};
use crate::channels::wakers::{WakeAtEnd, Wakers};
use std::sync::Arc;
use std::task::Waker;
use yovanelum_core::shim::alloc::Global;
use yovanelum_core::source::rw_steps::Told;
use yovanelum_record::clock::now;
use yovanelum_record::reply::Reply;

/// A channel whose lock is held, for the calls of one actor by one handle.
///
/// What each recorded call does is inlined into its caller. What only a replay does, a value with a
/// text, a future that waits, or the end of a recording is in functions of its own. Where debug
/// assertions are on, nothing is inlined into another package: that of a test may be compiled
/// without optimisation, and this one with it.
pub(crate) struct LockedChannel<'a> {
    pub(crate) state: ChannelGuard<'a, ChannelState>,
    channel: &'a RecordedChannel,
    recorder: Option<&'a Shared>,
    // Of the next call, in a replay.
    permit: Option<Permit<'a>>,
    actor: Actor,
    handle: u32,
    // Who calls, where there is a recorder.
    caller: CallerNumber,
    called_at: CallSite,
    // The stamp of the last call, or 0 if it isn't recorded.
    stamp: u64,
}

impl RecordedChannel {
    /// Notes that the receiver with this number, in this slot, was told here that it has lost
    /// values. Returns the event.
    // What is cold gets what it needs, and not a `LockedChannel`, which would be stored in memory
    // for it at each call.
    #[cold]
    #[inline(never)]
    fn note_lag(
        &self,
        state: &mut ChannelState,
        receiver: (u32, Slot),
        (received_at, stamp): (CallSite, u64),
        lost: u64,
    ) -> Event {
        state.receivers.lose(receiver.1, lost);
        let dump = self.note_event(state, stamp, |recorder, state| {
            recorder.dump_on_lag(&self.state, state, receiver.0, lost)
        });
        Event::lag(&self.recorder, dump, || {
            Lag::new(&self.recorder, state, receiver, received_at, lost)
        })
    }

    /// Returns the event of the drop of the last sender.
    #[cold]
    #[inline(never)]
    fn note_close(&self, state: &mut ChannelState, stamp: u64) -> Event {
        let dump = self.note_event(state, stamp, |recorder, state| {
            recorder.dump_on_close(&self.state, state)
        });
        Event::close(&self.recorder, dump, || Close::new(state))
    }

    /// Notes the time of an event, and returns the dump that it calls for.
    fn note_event(
        &self,
        state: &mut ChannelState,
        stamp: u64,
        dump: impl FnOnce(&Arc<Shared>, &mut ChannelState) -> Option<Box<DumpRequest>>,
    ) -> Option<Box<DumpRequest>> {
        state.last_calls.as_mut()?.note_time(stamp);
        dump(self.recorder.0.as_ref()?, state)
    }
}

/// Lets the next call of a replay come, since the one with this permit is made. `text` is that of
/// the value that it has sent.
#[cold]
fn tell_made(permit: Option<Permit<'_>>, is_recorded: bool, text: Option<&str>) {
    if let Some(permit) = permit.filter(|_| is_recorded) {
        permit.made(text);
    }
}

/// A call of the core, as those who make it know it.
// A closure would be called by one more function where nothing is inlined.
pub(super) trait CoreCall: Copy {
    /// What it tells those who wait, where its reply doesn't say it.
    type Told;

    /// Makes the call by the handle with this number.
    fn make(self, state: &mut ChannelState, caller: Caller, handle: u32) -> (Reply, Self::Told);
}

/// It tells nobody, as its reply says.
impl CoreCall for Call {
    type Told = ();

    #[inline(always)]
    fn make(self, state: &mut ChannelState, caller: Caller, handle: u32) -> (Reply, ()) {
        (self(&mut state.core, caller, handle), ())
    }
}

/// It sends the next value. What it tells, its reply says.
impl CoreCall for Send {
    type Told = ();

    #[inline(always)]
    fn make(self, state: &mut ChannelState, caller: Caller, handle: u32) -> (Reply, ()) {
        let reply = self(&mut state.core, caller, handle, state.value_count);
        (reply, ())
    }
}

/// It drops the handle.
impl CoreCall for DropStep {
    type Told = Told;

    #[inline(always)]
    fn make(self, state: &mut ChannelState, caller: Caller, handle: u32) -> (Reply, Told) {
        self(&mut state.core, caller, handle)
    }
}

/// Makes a call of a channel without a recorder.
#[inline(always)]
fn call_unrecorded<C: CoreCall>(
    state: &mut ChannelState,
    handle: u32,
    call: C,
) -> (Reply, C::Told) {
    let (reply, told) = call.make(state, Caller::UNRECORDED, handle);
    if reply.answers() {
        (reply, told)
    } else {
        (reply.expect_made(), told)
    }
}

impl<'a> LockedChannel<'a> {
    /// Locks a channel for the calls of this actor.
    #[inline(always)]
    pub(super) fn of(
        channel: &'a RecordedChannel,
        access: Access<'a>,
        (actor, caller): (Actor, CallerNumber),
        handle: u32,
        called_at: CallSite,
    ) -> LockedChannel<'a> {
        LockedChannel {
            state: channel.state.lock(),
            channel,
            recorder: access.recorder,
            permit: access.permit,
            actor,
            handle,
            caller,
            called_at,
            stamp: 0,
        }
    }

    /// Makes a call.
    #[cfg_attr(debug_assertions, inline(never))]
    #[cfg_attr(not(debug_assertions), inline(always))]
    pub(crate) fn call(&mut self, call: Call) -> Reply {
        self.call_core(&None, call).0
    }

    /// Makes a call that creates a handle of this kind, and returns its slot with the reply. If a
    /// journal can't name that handle, the recording of this channel ends before.
    #[cfg_attr(debug_assertions, inline(never))]
    #[cfg_attr(not(debug_assertions), inline(always))]
    pub(crate) fn create(&mut self, kind: Kind, call: Call) -> (Reply, Slot) {
        if self.state.names_no_more_handles() {
            self.channel.end_for_handles(&mut self.state);
        }
        let reply = self.call(call);
        let Reply::New(number) = reply else {
            return (reply, NO_SLOT);
        };
        self.channel.counts.add(kind);
        let (state, made_at) = (&mut *self.state, self.called_at);
        state.store_making(made_at);
        let slot = match kind {
            Kind::Receiver => state.receivers.add(number as u32, made_at),
            Kind::Sender => NO_SLOT,
            Kind::WeakSender => WEAK_SLOT,
        };
        (reply, slot)
    }

    /// Makes a call that passes a new value to the core, by the value's number, and stores its
    /// text. Returns the number with the reply.
    #[cfg_attr(debug_assertions, inline(never))]
    #[cfg_attr(not(debug_assertions), inline(always))]
    pub(crate) fn send(&mut self, text: Option<String>, call: Send) -> (u64, Reply) {
        let (reply, ()) = self.call_core(&text, call);
        let state = &mut *self.state;
        let number = state.value_count;
        state.value_count = number + 1;
        match reply {
            Reply::NoReceivers(_) => state.unsent_count += 1,
            _ => {
                match self.recorder {
                    Some(_) => state.last_send.note_of(self.caller, self.called_at),
                    None => state.last_send.note(self.called_at),
                }
                state.sent_stamp = self.stamp;
            }
        }
        if let Some(text) = text {
            let is_sent = !matches!(reply, Reply::NoReceivers(_));
            state.store_text(number, text, is_sent);
        }
        (number, reply)
    }

    /// Makes a call. It gets the recorder's next number under the channel's lock, so stamps differ
    /// and are in the order of the calls: on each channel, and on several channels if one call
    /// returned before the other began. `text` is that of the value that it sends.
    // Where it isn't inlined, the core's call is one by a pointer. The state is borrowed once:
    // without optimization that takes a dozen instructions each time.
    #[inline(always)]
    fn call_core<C: CoreCall>(&mut self, text: &Option<String>, call: C) -> (Reply, C::Told) {
        let (state, handle) = (&mut *self.state, self.handle);
        let Some(recorder) = self.recorder else {
            return call_unrecorded(state, handle, call);
        };
        let (actor, called_at) = (self.actor, self.called_at);
        let clock;
        // One that shares the clock with none is past the limit once it no longer keeps all.
        if state.keeps_all && !(state.shares_clock && recorder.is_past_limit()) {
            // It is added before the call, so that nothing of the reply has to be stored meanwhile.
            state.locations.of_calls.push(called_at);
            clock = recorder.tick(state.shares_clock);
            self.stamp = clock + 1;
        } else if state.adds_plain(actor, called_at) {
            clock = recorder.tick(state.shares_clock);
            self.stamp = clock + 1;
        } else {
            let by = (actor, called_at);
            clock = self.channel.tick_rarely(recorder, state, by);
            self.stamp = state.stamp_after(clock);
        }
        let caller = Caller { actor, clock };
        let (reply, told) = call.make(state, caller, handle);
        if !reply.answers() {
            let (channel, permit) = (self.channel, self.permit.take());
            let by = (caller, handle);
            let made = channel.end_unrecorded(state, permit, by, (reply, told), call);
            self.stamp = state.stamp_after(clock);
            return made;
        }
        if let Some(_permit) = &self.permit {
            tell_made(self.permit.take(), state.is_recorded, text.as_deref());
        }
        (reply, told)
    }

    /// Makes a call that waits, and for which a journal has the word of one that doesn't.
    pub(crate) fn call_that_waits(&mut self, call: Call) {
        self.call(call);
        self.state.note_waited();
    }

    /// Notes that the receiver in this slot has received a value. Returns the channel's state, and
    /// whether a call of the receiver that waits is listed.
    #[cfg_attr(debug_assertions, inline(never))]
    #[cfg_attr(not(debug_assertions), inline(always))]
    pub(crate) fn note_receive(&mut self, slot: Slot) -> (&mut ChannelState, bool) {
        let state = &mut *self.state;
        let has_wait = state.receivers.receive(slot, self.called_at, self.stamp);
        (state, has_wait)
    }

    /// Notes that the receiver in this slot was told that it has lost values. Returns the event, to
    /// be dropped once the channel is unlocked.
    // Where it isn't inlined, each receive stores the `LockedChannel` for it.
    #[cfg_attr(debug_assertions, inline(never))]
    #[cfg_attr(not(debug_assertions), inline(always))]
    pub(crate) fn note_lag(&mut self, slot: Slot, lost: u64) -> Event {
        let (state, receiver) = (&mut *self.state, (self.handle, slot));
        let at = (self.called_at, self.stamp);
        self.channel.note_lag(state, receiver, at, lost)
    }

    /// Returns the greatest stamp that a recorded call can have so far.
    pub(crate) fn clock(&self) -> u64 {
        self.recorder.map_or(0, |recorder| recorder.last())
    }

    /// Unlocks the channel.
    #[cfg_attr(debug_assertions, inline(never))]
    #[cfg_attr(not(debug_assertions), inline(always))]
    pub(crate) fn unlock(self) {}

    /// Unlocks the channel after a call of the receiver in this slot. A call of it that is still
    /// listed among those that wait was forgotten, and is no longer.
    #[cfg_attr(debug_assertions, inline(never))]
    #[cfg_attr(not(debug_assertions), inline(always))]
    pub(crate) fn unlock_without_wait(self, slot: Slot) {
        let has_wait = self.state.receivers.has_wait(slot);
        self.unlock_after(has_wait, slot);
    }

    /// As [`unlock_without_wait`](LockedChannel::unlock_without_wait), where it is known whether a
    /// call of the receiver is listed.
    #[cfg_attr(debug_assertions, inline(never))]
    #[cfg_attr(not(debug_assertions), inline(always))]
    pub(crate) fn unlock_after(self, has_wait: bool, slot: Slot) {
        if has_wait {
            unlock_and_forget(self.state, slot);
        }
    }

    /// Unlocks the channel without a call, and returns by what the call is made.
    pub(crate) fn into_access(self) -> Access<'a> {
        Access {
            recorder: self.recorder,
            permit: self.permit,
        }
    }

    /// Says that the call has to wait, if it was its turn in a replay.
    #[inline]
    pub(crate) fn would_wait(&mut self) {
        if let Some(permit) = self.permit.take() {
            permit.would_wait();
        }
    }

    /// Lists a call of the handle, which is of this kind, among those that wait since this time of
    /// the clock.
    #[inline]
    pub(crate) fn list_wait(
        &mut self,
        (kind, slot): (Kind, Slot),
        awaited: Awaited,
        method: Method,
        since: u64,
    ) -> ListedCall {
        let (actor, handle) = (self.actor, self.handle);
        self.state.waits.add(Wait {
            actor,
            handle,
            slot,
            kind,
            awaited,
            method,
            since,
            began: now(),
        })
    }

    /// Whether the channel belongs to a recorder.
    #[inline]
    pub(crate) fn has_recorder(&self) -> bool {
        self.recorder.is_some()
    }

    /// Notes this call as the look with this number. The numbers of looks that were noted before
    /// are below it, or one less.
    #[inline]
    pub(crate) fn note_look(&mut self, number: usize) {
        let (actor, called_at) = (self.actor, self.called_at);
        let look = Look { actor, called_at };
        match self.state.looks.get_mut(number) {
            Some(noted) => *noted = look,
            None => self.state.looks.push(look),
        }
    }

    /// Returns the look with this number, if it was noted.
    pub(crate) fn look(&self, number: usize) -> Option<Look> {
        self.state.looks.get(number).copied()
    }

    /// Makes the call that drops the handle. Returns the futures that wait for it: those of
    /// receivers if it was the last sender, and those of senders if it was the last receiver. The
    /// event is to be dropped once they are woken.
    #[cfg_attr(debug_assertions, inline(never))]
    #[cfg_attr(not(debug_assertions), inline(always))]
    pub(crate) fn drop_handle(
        &mut self,
        kind: Kind,
        slot: Slot,
        (call, step): (Call, DropStep),
    ) -> (Wakers, Event) {
        // Most often nobody waits, and so nobody can be woken.
        if self.state.waiting.is_nobody() {
            self.call(call);
            let (gone, event) = self.end_dropped(kind, slot);
            return (Wakers::gone(gone), event);
        }
        let (_, told) = self.call_core(&None, step);
        let (gone, event) = self.end_dropped(kind, slot);
        (self.state.remove_wakers(told).and_gone(gone), event)
    }

    /// Ends what the channel has of its handle of this kind, which is dropped, beside the core.
    #[cfg_attr(debug_assertions, inline(never))]
    #[cfg_attr(not(debug_assertions), inline(always))]
    fn end_dropped(&mut self, kind: Kind, slot: Slot) -> (Option<Waker>, Event) {
        let left = self.channel.counts.remove(kind);
        self.state.remove_name(self.handle);
        // Without a recorder no entry says so.
        if self.recorder.is_some() && actors::is_dropping_future() {
            self.state.note_cancelled();
        }
        match kind {
            Kind::Sender => (None, self.drop_sender(left)),
            Kind::Receiver => (self.drop_receiver(slot, left), Event::default()),
            Kind::WeakSender => (None, Event::default()),
        }
    }

    /// Ends what the channel has of its sender that is dropped, where so many senders are left.
    #[inline]
    fn drop_sender(&mut self, left: usize) -> Event {
        if left > 0 {
            return Event::default();
        }
        self.state.note_last_drop(Kind::Sender);
        self.channel.note_close(&mut self.state, self.stamp)
    }

    /// Ends what the channel has of its receiver in this slot, which is dropped, where so many are
    /// left. Returns the waker of a call of it that was forgotten.
    #[cfg_attr(debug_assertions, inline)]
    #[cfg_attr(not(debug_assertions), inline(always))]
    fn drop_receiver(&mut self, slot: Slot, left: usize) -> Option<Waker> {
        let state = &mut *self.state;
        let mut gone = None;
        if state.receivers.has_wait(slot) {
            gone = state.end_forgotten(slot);
        }
        state.receivers.remove(slot);
        if left == 0 {
            state.receivers.remove_slots();
            state.note_last_drop(Kind::Receiver);
        }
        gone
    }

    /// Whether the handle, a receiver of a watch, has seen the value.
    #[cfg_attr(debug_assertions, inline(never))]
    #[cfg_attr(not(debug_assertions), inline(always))]
    pub(crate) fn has_seen(&mut self) -> bool {
        self.state.core.seen(self.handle)
    }

    /// Returns the core's channel, to read from it. That leaves no entry.
    #[inline]
    pub(crate) fn core(&mut self) -> &mut CoreChannel {
        &mut self.state.core
    }

    /// Unlocks the channel, and then wakes the futures that wait for what the call of a sender with
    /// this reply has told.
    #[cfg_attr(debug_assertions, inline(never))]
    #[cfg_attr(not(debug_assertions), inline(always))]
    pub(crate) fn unlock_and_wake(self, reply: Reply) {
        if self.state.waiting.wakes_after(reply) {
            unlock_and_wake_each(self.state, Told::by_reply(reply));
        }
    }

    /// Unlocks the channel, drops a value, and then wakes the futures that wait for what the call
    /// of a sender with this reply has told. They are woken also if the drop panics.
    #[cfg_attr(debug_assertions, inline(never))]
    #[cfg_attr(not(debug_assertions), inline(always))]
    pub(crate) fn unlock_drop_and_wake<V>(self, dropped: V, reply: Reply) {
        if self.state.waiting.wakes_after(reply) {
            unlock_drop_and_wake_each(self.state, dropped, Told::by_reply(reply));
        } else {
            drop(self);
            drop(dropped);
        }
    }
}

// These are cold, so they get the state, and not a `LockedChannel`, which would be stored in memory
// for them at each call. The call is made, and has used its permit.

#[cold]
#[inline(never)]
fn unlock_and_forget(mut state: ChannelGuard<'_, ChannelState>, slot: Slot) {
    let gone = state.end_forgotten(slot);
    drop(state);
    drop(gone);
}

#[cold]
#[inline(never)]
fn unlock_and_wake_each(mut state: ChannelGuard<'_, ChannelState>, told: Told) {
    let mut wakers = state.remove_wakers(told);
    drop(state);
    wakers.wake();
}

#[cold]
#[inline(never)]
fn unlock_drop_and_wake_each<V>(mut state: ChannelGuard<'_, ChannelState>, dropped: V, told: Told) {
    let wakers = WakeAtEnd(state.remove_wakers(told));
    drop(state);
    drop(dropped);
    drop(wakers);
}

impl ChannelState {
    /// Removes the futures that wait for what a call has told, and returns their wakers.
    #[cold]
    #[inline(never)]
    fn remove_wakers(&mut self, told: Told) -> Wakers {
        Wakers::woken(self.waiting.wake(Global, told))
    }
}
