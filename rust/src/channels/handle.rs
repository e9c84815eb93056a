//! What a sender, a weak sender and a receiver are, of either kind of channel.

use crate::channels::budget;
use crate::channels::channel::{
    Access, Call, CallSite, CoreChannel, DropStep, LockedChannel, NO_SLOT, RecordedChannel, Slot,
    TypedChannel, call_site,
};
use crate::channels::lock::lock;
use crate::channels::recorder::RecordedHandle;
use crate::channels::results::ReplyResult;
use crate::channels::wait::{ComingCall, Method, Pending, PolledCall, WaitFor};
use std::future::poll_fn;
use std::mem;
use std::panic::{RefUnwindSafe, UnwindSafe};
use std::sync::Arc;
use std::task::{Context, Poll};
pub(crate) use yovanelum_record::operation::Kind;
use yovanelum_record::operation::Operation;
use yovanelum_record::reply::Reply;

/// A sender, weak sender or receiver: its channel, its number in that channel, and its kind. The
/// public types wrap it, and make the call that drops it.
pub(crate) struct ChannelHandle<T, S> {
    pub(crate) channel: Arc<TypedChannel<T, S>>,
    pub(crate) number: u32,
    // Of a receiver, where it is in the channel's list of those that are alive. It says which kind
    // of handle this is, so that it has no more than 16 bytes.
    pub(crate) slot: Slot,
}

// A panic in user code leaves no channel half changed: none of that code runs while the channel is
// locked. The value of a watch is what a closure that panics has left, as in tokio.
impl<T, S> UnwindSafe for ChannelHandle<T, S> {}
impl<T, S> RefUnwindSafe for ChannelHandle<T, S> {}

/// By what most calls are made, of channels without a recorder and of those that are recorded
/// without a turn. Where a call is optimized, each of the two has code of its own, in which nothing
/// is left of what it hasn't. Unoptimized, the code is the same, and has a large value on its stack
/// once.
pub(crate) enum Usual<'a> {
    Unrecorded(Access<'a>),
    Recorded(Access<'a>),
    Neither,
}

impl<T, S> ChannelHandle<T, S> {
    /// Returns the two handles that the core opens each channel with: sender 0 and receiver 1.
    pub(crate) fn first_two(channel: Arc<TypedChannel<T, S>>) -> (Self, Self) {
        let sender = ChannelHandle {
            channel,
            number: 0,
            slot: NO_SLOT,
        };
        let receiver = sender.sibling(1, Slot::FIRST);
        (sender, receiver)
    }

    /// Returns the handle of the same channel that has this number and this slot.
    pub(crate) fn sibling(&self, number: u32, slot: Slot) -> Self {
        ChannelHandle {
            channel: self.channel.clone(),
            number,
            slot,
        }
    }

    #[inline(always)]
    pub(crate) fn kind(&self) -> Kind {
        self.slot.kind()
    }

    /// Creates a handle of the same channel, by this call.
    #[track_caller]
    #[cfg_attr(not(debug_assertions), inline(always))]
    pub(crate) fn create(&self, kind: Kind, word: Operation, call: Call) -> Self {
        self.create_with(kind, word, call, || ()).0
    }

    /// As [`create`](ChannelHandle::create). Also returns what is said of the channel while it is
    /// still locked.
    #[track_caller]
    #[cfg_attr(not(debug_assertions), inline(always))]
    pub(crate) fn create_with<R>(
        &self,
        kind: Kind,
        word: Operation,
        call: Call,
        said: impl FnOnce() -> R,
    ) -> (Self, R) {
        let mut channel = self.lock(word, call_site());
        let (reply, slot) = channel.create(kind, call);
        let said = said();
        channel.unlock();
        (self.sibling(reply.new_handle(), slot), said)
    }

    pub(crate) fn same_channel(&self, other: &Self) -> bool {
        Arc::ptr_eq(&self.channel, &other.channel)
    }

    pub(crate) fn recorded(&self) -> &RecordedChannel {
        &self.channel.recorded
    }

    /// Returns what a recorder knows of this handle.
    pub(crate) fn of_recorder(&self) -> RecordedHandle<'_> {
        RecordedHandle {
            channel: self.recorded(),
            number: self.number,
            kind: self.kind(),
        }
    }

    /// Locks the channel for a call of this handle, which is made here in the source, once its turn
    /// in a replay has come.
    #[inline(always)]
    pub(crate) fn lock(&self, word: Operation, called_at: CallSite) -> LockedChannel<'_> {
        let channel = &self.channel.recorded;
        channel.lock_in_turn(self.number, word, called_at)
    }

    /// By what most calls are made.
    #[inline(always)]
    pub(crate) fn usual(&self) -> Usual<'_> {
        let channel = &self.channel.recorded;
        match (&channel.recorder.0, &channel.ordered) {
            (None, _) => Usual::Unrecorded(Access::UNRECORDED),
            (Some(recorder), None) => Usual::Recorded(Access {
                recorder: Some(recorder),
                permit: None,
            }),
            (Some(_), Some(_)) => Usual::Neither,
        }
    }

    /// Waits for the turn of a call of this handle in a replay. It is called before a lock is
    /// acquired.
    #[inline(always)]
    pub(crate) fn pass(&self, word: Operation, called_at: CallSite) -> Access<'_> {
        self.channel.recorded.pass(self.number, word, called_at)
    }

    /// What a call has that needs no turn.
    #[inline(always)]
    pub(crate) fn unordered(&self) -> Access<'_> {
        Access {
            recorder: self.channel.recorded.recorder.0.as_deref(),
            permit: None,
        }
    }

    /// Locks the channel for a call that is made by this.
    #[inline(always)]
    pub(crate) fn lock_with<'a>(
        &'a self,
        access: Access<'a>,
        called_at: CallSite,
    ) -> LockedChannel<'a> {
        self.channel
            .recorded
            .lock_with(access, self.number, called_at)
    }

    /// Makes a call.
    #[track_caller]
    #[inline]
    pub(crate) fn call(&self, word: Operation, call: Call) -> Reply {
        self.lock(word, call_site()).call(call)
    }

    /// Makes a call that only asks. If questions leave no entry, `read` replies instead.
    #[track_caller]
    #[inline]
    pub(crate) fn ask(
        &self,
        word: Operation,
        call: Call,
        read: impl FnOnce(&mut CoreChannel, u32) -> Reply,
    ) -> Reply {
        if self.recorded().is_quiet(self.number, word, call_site()) {
            return read(&mut lock(&self.recorded().state).core, self.number);
        }
        self.call(word, call)
    }

    /// Makes a call that asks for a count. If questions leave no entry, `read` counts instead.
    #[track_caller]
    pub(crate) fn ask_count(
        &self,
        word: Operation,
        call: Call,
        read: impl FnOnce(&mut CoreChannel, u32) -> u64,
    ) -> usize {
        let reply = self.ask(word, call, |core, number| Reply::Count(read(core, number)));
        reply.count()
    }

    /// As [`ask_count`](ChannelHandle::ask_count), of how many handles of a kind are alive.
    #[track_caller]
    #[inline]
    pub(crate) fn ask_alive(&self, kind: Kind, word: Operation, call: Call) -> usize {
        let recorded = self.recorded();
        if recorded.recorder.0.is_none() || recorded.is_quiet(self.number, word, call_site()) {
            return self.alive(kind);
        }
        self.call(word, call).count()
    }

    /// How many handles of a kind are alive, by no call that leaves an entry.
    #[inline]
    pub(crate) fn alive(&self, kind: Kind) -> usize {
        self.recorded().counts.of(kind)
    }

    /// Makes the call that drops this handle, and wakes those who wait for it. Drops are called by
    /// the compiler, so it has no location in the source.
    pub(crate) fn drop_by(&self, by: (Call, DropStep)) {
        self.drop_with(by, || ());
    }

    /// As [`drop_by`](ChannelHandle::drop_by). What is noted is while the channel is still locked.
    #[inline]
    pub(crate) fn drop_with(&self, by: (Call, DropStep), note: impl FnOnce()) {
        let mut channel = self.lock(Operation::Drop, None);
        let (mut wakers, _event) = channel.drop_handle(self.kind(), self.slot, by);
        note();
        channel.unlock();
        wakers.wake();
    }

    /// A call that waits, with its state since it was polled before.
    pub(crate) fn waiting(
        &self,
        wait_for: WaitFor,
        word: Operation,
        method: Method,
        pending: Pending,
    ) -> PolledCall<'_> {
        PolledCall {
            channel: self.recorded(),
            handle: self.number,
            slot: self.slot,
            wait_for,
            word,
            method,
            pending,
        }
    }

    /// Makes a call that waits: attempts it until it completes.
    pub(crate) async fn wait<R>(
        &self,
        wait_for: WaitFor,
        word: Operation,
        method: Method,
        mut attempt: impl FnMut(&mut LockedChannel<'_>) -> Poll<R>,
    ) -> R {
        let mut waiting = self.waiting(wait_for, word, method, Pending::default());
        poll_fn(|context| waiting.poll(context, &mut attempt)).await
    }

    /// Takes one of the budget of the task that is polled, once there is one.
    pub(crate) async fn give_way(&self) {
        poll_fn(|context| {
            if self.recorded().gives_way(context) {
                Poll::Pending
            } else {
                budget::take_one(context);
                Poll::Ready(())
            }
        })
        .await
    }

    /// Waits for the turn of a call of this handle in a replay, where it may be pending until then.
    pub(crate) async fn turn(&self, word: Operation, called_at: CallSite) -> Access<'_> {
        let mut coming = ComingCall {
            channel: self.recorded(),
            handle: self.number,
            word,
            called_at,
            ticket: None,
        };
        let permit = poll_fn(|context| coming.poll(context)).await;
        Access {
            permit,
            ..self.unordered()
        }
    }

    /// Attempts a call that waits. Between attempts the caller holds its state, and ends the wait
    /// if there is no further attempt.
    pub(crate) fn poll_wait<R>(
        &self,
        wait_for: WaitFor,
        word: Operation,
        method: Method,
        pending: &mut Pending,
        context: &Context<'_>,
        attempt: impl FnMut(&mut LockedChannel<'_>) -> Poll<R>,
    ) -> Poll<R> {
        let mut waiting = self.waiting(wait_for, word, method, mem::take(pending));
        let polled = waiting.poll(context, attempt);
        *pending = mem::take(&mut waiting.pending);
        polled
    }
}
