//! The calls of a channel before the gate of a replay. Without a replay they pass at once.

use super::{CallSite, LockedChannel, RecordedChannel};
use crate::channels::budget;
use crate::channels::lock::lock;
use crate::channels::turns::{ArrivingCall, OrderedChannel, Permit, Ticket};
use std::task::{Context, Poll};
use yovanelum_record::operation::Operation;

impl RecordedChannel {
    /// Returns the gate before which this call waits, if there is one, with the call as it comes
    /// there.
    fn at_gate(
        &self,
        handle: u32,
        word: Operation,
        called_at: CallSite,
    ) -> Option<(&OrderedChannel, ArrivingCall)> {
        let ordered = self.ordered.as_ref()?;
        if word.makes().is_some() && ordered.turns().follows_journal() {
            self.end_if_all_are_named();
        }
        let actor = self.recorder.actor(called_at);
        Some((ordered, ordered.coming(handle, word, actor, called_at)?))
    }

    /// Ends the recording of a channel that is to create one handle more than a journal names. The
    /// journal doesn't have that call, so it has no turn to wait for.
    fn end_if_all_are_named(&self) {
        let mut state = lock(&self.state);
        if state.names_no_more_handles() {
            self.end_for_handles(&mut state);
        }
    }

    /// Whether this handle, a receiver of a broadcast, has anything to receive.
    fn has_unread(&self, handle: u32) -> bool {
        lock(&self.state).core.unread(handle) > 0
    }

    /// Blocks until the turn of a call by the handle with this number, which is made here in the
    /// source, in a replay. It is called before any lock is acquired, that of a watch's value too.
    #[cold]
    pub(crate) fn pass_gate(
        &self,
        handle: u32,
        word: Operation,
        called_at: CallSite,
    ) -> Option<Permit<'_>> {
        match self.at_gate(handle, word, called_at) {
            Some((ordered, coming)) => ordered.pass(coming, &|| self.has_unread(handle)),
            None => None,
        }
    }

    /// As [`poll_pass`](RecordedChannel::poll_pass), in a replay.
    #[cold]
    fn poll_gate(
        &self,
        handle: u32,
        word: Operation,
        called_at: CallSite,
        ticket: &mut Option<Ticket>,
        context: &Context<'_>,
    ) -> Poll<Option<Permit<'_>>> {
        match self.at_gate(handle, word, called_at) {
            Some((ordered, coming)) => {
                ordered.poll(coming, &|| self.has_unread(handle), ticket, context)
            }
            None => Poll::Ready(None),
        }
    }

    /// Blocks until the turn of the first call that a closure which changes a watch makes, or of
    /// the change if it makes none. The change itself then waits for its own turn.
    pub(crate) fn pass_to_modify(&self, handle: u32, called_at: CallSite) {
        if let Some((ordered, coming)) = self.at_gate(handle, Operation::Modify, called_at) {
            ordered.turns().pass_to_modify(coming);
        }
    }

    /// Polls a call that waits: it is pending until its turn. The caller holds the ticket between
    /// polls, and leaves by it if there is no further one.
    #[inline]
    pub(crate) fn poll_pass(
        &self,
        handle: u32,
        word: Operation,
        called_at: CallSite,
        ticket: &mut Option<Ticket>,
        context: &Context<'_>,
    ) -> Poll<Option<Permit<'_>>> {
        match self.ordered {
            Some(_) => self.poll_gate(handle, word, called_at, ticket, context),
            None => Poll::Ready(None),
        }
    }

    /// Whether a call that may wait is pending, since its task has used up its budget. In a replay
    /// its turn decides, and there is no budget: the call before which the recorded task gave way
    /// comes later there, too.
    #[inline]
    pub(crate) fn gives_way(&self, context: &Context<'_>) -> bool {
        self.ordered.is_none() && budget::gives_way(context)
    }

    /// Whether questions leave no entry. A replay, which doesn't order them then, notes that this
    /// one is asked here in the source.
    #[inline]
    pub(crate) fn is_quiet(&self, handle: u32, word: Operation, called_at: CallSite) -> bool {
        let is_quiet = self.recorder.is_quiet();
        if is_quiet && self.ordered.is_some() {
            self.note_question(handle, word, called_at);
        }
        is_quiet
    }

    #[cold]
    fn note_question(&self, handle: u32, word: Operation, called_at: CallSite) {
        if let Some((ordered, coming)) = self.at_gate(handle, word, called_at) {
            ordered.turns().note_question(coming);
        }
    }

    /// Leaves the gate, if a future waits there by this ticket.
    pub(crate) fn leave_gate(&self, ticket: &mut Option<Ticket>) {
        if let (Some(ordered), Some(ticket)) = (&self.ordered, ticket.take()) {
            ordered.turns().leave(ticket);
        }
    }

    /// Locks the channel for calls that no replay orders, since they leave no entry.
    #[inline]
    pub(crate) fn lock_unordered(&self, handle: u32, called_at: CallSite) -> LockedChannel<'_> {
        self.lock(None, handle, called_at)
    }
}
