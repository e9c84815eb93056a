//! Calls that wait: what a channel lists of them, and their futures. The methods of senders and
//! receivers wait by it.

use crate::channels::backend::Actor;
use crate::channels::budget;
use crate::channels::channel::{
    CallSite, ListedCall, LockedChannel, NO_SLOT, RecordedChannel, Slot, call_site,
};
use crate::channels::handle::Kind;
use crate::channels::lock::lock;
use crate::channels::turns::{Permit, Ticket};
use crate::channels::whereabouts::waker_of_call;
use std::task::{Context, Poll, Waker};
use std::time::{Duration, Instant};
pub(crate) use yovanelum_core::source::rw_waiting::WaitFor;
use yovanelum_record::operation::Operation;

/// The ticket of a call among those that are woken. Of two that wait for the same, the one that
/// began first has the lower ticket.
pub(crate) type WaitTicket = u64;

/// The kind of the handles that wait for this.
fn kind_of(wait_for: WaitFor) -> Kind {
    match wait_for {
        WaitFor::Value => Kind::Receiver,
        WaitFor::NoReceiver => Kind::Sender,
    }
}

fn awaited_of(wait_for: WaitFor) -> Awaited {
    match wait_for {
        WaitFor::Value => Awaited::Value,
        WaitFor::NoReceiver => Awaited::NoReceiver,
    }
}

/// A method that waits, as the code under test has called it.
#[derive(Clone, Copy)]
pub(crate) struct Method {
    pub(crate) name: &'static str,
    pub(crate) called_at: CallSite,
}

impl Method {
    /// A method that is called where the caller was called.
    #[track_caller]
    #[inline]
    pub(crate) fn called(name: &'static str) -> Method {
        Method {
            name,
            called_at: call_site(),
        }
    }
}

/// A look at the value of a watch, which holds the value's lock while it is alive.
#[derive(Clone, Copy)]
pub(crate) struct Look {
    pub(crate) actor: Actor,
    pub(crate) called_at: CallSite,
}

/// What a listed call waits for.
#[derive(Clone, Copy)]
pub(crate) enum Awaited {
    /// A value, or that no sender is alive.
    Value,
    /// That no receiver is alive.
    NoReceiver,
    /// The lock of a watch's value, and a look that held it when the wait began, if it is known
    /// whose it was.
    Lock(Option<Look>),
}

impl Awaited {
    /// What wakes the call, unless it waits for a lock.
    pub(crate) fn wait_for(self) -> Option<WaitFor> {
        match self {
            Awaited::Value => Some(WaitFor::Value),
            Awaited::NoReceiver => Some(WaitFor::NoReceiver),
            Awaited::Lock(_) => None,
        }
    }
}

/// A call that has begun to wait, as its channel lists it.
#[derive(Clone, Copy)]
pub(crate) struct Wait {
    pub(crate) actor: Actor,
    pub(crate) handle: u32,
    /// Where the handle is among the receivers, if it is one and the call has a waker.
    pub(crate) slot: Slot,
    pub(crate) kind: Kind,
    pub(crate) awaited: Awaited,
    pub(crate) method: Method,
    /// The recorder's clock when the call began to wait.
    pub(crate) since: u64,
    /// The time when it began to, where there is a clock.
    pub(crate) began: Option<Instant>,
}

/// A call that waited, and was dropped before it completed.
#[derive(Clone, Copy)]
pub(crate) struct DroppedWait {
    pub(crate) wait: Wait,
    /// The recorder's clock when it was dropped.
    pub(crate) until: u64,
    /// The time when it was dropped, where there is a clock.
    pub(crate) ended: Option<Instant>,
}

impl DroppedWait {
    /// How long it waited, where there is a clock.
    pub(crate) fn waited(&self) -> Option<Duration> {
        Some(self.ended?.duration_since(self.wait.began?))
    }
}

/// The state of a call that waits between its polls.
#[derive(Default)]
pub(crate) struct Pending {
    /// Where it is among the calls that wait.
    pub(crate) listed: Option<ListedCall>,
    /// Its ticket before the gate of a replay.
    pub(crate) before_gate: Option<Ticket>,
}

impl Pending {
    #[inline]
    pub(crate) fn is_waiting(&self) -> bool {
        self.listed.is_some() || self.before_gate.is_some()
    }
}

impl Pending {
    /// Ends the wait of a call on this channel, which is dropped, if it waits.
    pub(crate) fn end(&mut self, channel: &RecordedChannel, wait_for: WaitFor) {
        channel.leave_gate(&mut self.before_gate);
        if self.is_waiting() {
            let until = channel.recorder.0.as_ref().map(|recorder| recorder.last());
            let mut state = lock(&channel.state);
            state.note_dropped(self, until, channel.ordered.is_some());
            let removed = state.end_wait(wait_for, self);
            drop(state);
            drop(removed);
        }
    }
}

/// A call that waits. If it is dropped before it completes, it has changed nothing, isn't recorded,
/// and is no longer woken or listed.
pub(crate) struct PolledCall<'a> {
    pub(crate) channel: &'a RecordedChannel,
    pub(crate) handle: u32,
    pub(crate) slot: Slot,
    pub(crate) wait_for: WaitFor,
    pub(crate) word: Operation,
    pub(crate) method: Method,
    pub(crate) pending: Pending,
}

impl<'a> PolledCall<'a> {
    /// Attempts the call. If it has to wait, the future is listed under the same lock, so no call
    /// in between is missed. Wakers are cloned and dropped while no lock is held, since that may
    /// run user code.
    pub(crate) fn poll<R>(
        &mut self,
        context: &Context<'_>,
        mut attempt: impl FnMut(&mut LockedChannel<'_>) -> Poll<R>,
    ) -> Poll<R> {
        if self.channel.gives_way(context) {
            return Poll::Pending;
        }
        let Poll::Ready(mut permit) = self.poll_pass(context) else {
            return Poll::Pending;
        };
        let mut cloned: Option<Waker> = None;
        loop {
            let permit = permit.take();
            let called_at = self.method.called_at;
            let mut channel = self.channel.lock(permit, self.handle, called_at);
            // An attempt that has to wait uses a number of the clock, and leaves no entry.
            let since = channel.clock();
            if let Poll::Ready(result) = attempt(&mut channel) {
                let removed = channel.state.end_wait(self.wait_for, &mut self.pending);
                drop(channel);
                drop((removed, cloned));
                budget::take_one(context);
                return Poll::Ready(result);
            }
            channel.would_wait();
            let listed = self.list(&mut channel, since);
            let state = &mut *channel.state;
            if state.wakes(self.wait_for, listed, context.waker()) {
                return Poll::Pending;
            }
            let has_waker = cloned.is_some();
            let unwanted = state.list_waker(self.wait_for, listed, cloned.take());
            drop(channel);
            drop(unwanted);
            if has_waker {
                return Poll::Pending;
            }
            cloned = self.set_waker(listed, waker_of_call(&self.method, context));
            if cloned.is_none() {
                return Poll::Pending;
            }
        }
    }

    /// Has the call, which was listed before its waker was cloned, woken by that one. If a call has
    /// taken it off the list meanwhile, it may go on, and the waker comes back.
    #[inline]
    fn set_waker(&self, listed: ListedCall, waker: Waker) -> Option<Waker> {
        let mut state = lock(&self.channel.state);
        let set = state.set_waker(self.wait_for, listed, waker);
        drop(state);
        set.err()
    }

    /// Waits for the turn of the call in a replay. It is listed among those that wait.
    #[inline]
    fn poll_pass(&mut self, context: &Context<'_>) -> Poll<Option<Permit<'a>>> {
        let channel = self.channel;
        let (handle, word, called_at) = (self.handle, self.word, self.method.called_at);
        let ticket = &mut self.pending.before_gate;
        let passed = channel.poll_pass(handle, word, called_at, ticket, context);
        if passed.is_pending() {
            self.hold();
        }
        passed
    }

    /// Lists the call as one that is held before the gate.
    #[cold]
    fn hold(&mut self) {
        if let Some(listed) = self.pending.listed {
            lock(&self.channel.state).note_held(self.wait_for, listed);
            return;
        }
        let channel = self.channel;
        let mut channel = channel.lock_unordered(self.handle, self.method.called_at);
        let since = channel.clock();
        self.list(&mut channel, since);
    }
}

impl PolledCall<'_> {
    /// Lists the call among those that wait since this time of the clock, unless it is there.
    fn list(&mut self, channel: &mut LockedChannel<'_>, since: u64) -> ListedCall {
        let (kind, slot) = (kind_of(self.wait_for), self.slot);
        let (awaited, method) = (awaited_of(self.wait_for), self.method);
        let listed = &mut self.pending.listed;
        *listed.get_or_insert_with(|| channel.list_wait((kind, slot), awaited, method, since))
    }
}

/// A call that blocks its thread for the lock of a watch's value, and is listed until this is
/// dropped.
pub(crate) struct BlockedCall<'a> {
    channel: &'a RecordedChannel,
    listed: ListedCall,
}

impl<'a> BlockedCall<'a> {
    /// Lists a call of this handle, which waits for the lock that this look holds, if it is known
    /// whose it is.
    pub(crate) fn list(
        channel: &'a RecordedChannel,
        (handle, kind): (u32, Kind),
        method: Method,
        held_by: impl FnOnce(&LockedChannel<'_>) -> Option<Look>,
    ) -> BlockedCall<'a> {
        let mut locked = channel.lock_unordered(handle, method.called_at);
        let (since, look) = (locked.clock(), held_by(&locked));
        let listed = locked.list_wait((kind, NO_SLOT), Awaited::Lock(look), method, since);
        BlockedCall { channel, listed }
    }
}

impl Drop for BlockedCall<'_> {
    fn drop(&mut self) {
        lock(&self.channel.state).end_blocked(self.listed);
    }
}

impl Drop for PolledCall<'_> {
    fn drop(&mut self) {
        self.pending.end(self.channel, self.wait_for);
    }
}

/// A call that waits before the gate of a replay. If it is dropped before its turn comes, it leaves
/// the gate.
pub(crate) struct ComingCall<'a> {
    pub(crate) channel: &'a RecordedChannel,
    pub(crate) handle: u32,
    pub(crate) word: Operation,
    pub(crate) called_at: CallSite,
    pub(crate) ticket: Option<Ticket>,
}

impl<'a> ComingCall<'a> {
    pub(crate) fn poll(&mut self, context: &Context<'_>) -> Poll<Option<Permit<'a>>> {
        let ticket = &mut self.ticket;
        self.channel
            .poll_pass(self.handle, self.word, self.called_at, ticket, context)
    }
}

impl Drop for ComingCall<'_> {
    fn drop(&mut self) {
        self.channel.leave_gate(&mut self.ticket);
    }
}

#[cfg(test)]
mod model;
