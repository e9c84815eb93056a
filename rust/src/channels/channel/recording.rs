//! How a call of a channel is recorded: with all others, among the last ones, or not at all.

use super::locked::CoreCall;
use super::{CallSite, ChannelState, RecordedChannel};
use crate::channels::backend::{Actor, Caller};
use crate::channels::recorder::Shared;
use crate::channels::results::ReplyResult;
use crate::channels::turns::Permit;
use yovanelum_record::reply::Reply;

impl ChannelState {
    /// Returns the stamp of a call that the clock has this number for, or 0 if it isn't recorded.
    pub(super) fn stamp_after(&self, clock: u64) -> u64 {
        if self.is_recorded { clock + 1 } else { 0 }
    }
}

impl RecordedChannel {
    /// Returns the clock's number for the next call, where it isn't as most are.
    // What is cold is laid out apart, and so leaves the calls that are recorded as fast as they
    // are.
    #[cold]
    #[inline(never)]
    pub(super) fn tick_rarely(
        &self,
        recorder: &Shared,
        state: &mut ChannelState,
        caller: (Actor, CallSite),
    ) -> u64 {
        if state.keeps_all {
            self.tick_past_limit(recorder, state, caller)
        } else {
            self.tick_apart(recorder, state, caller)
        }
    }

    /// Stores by whom and where the next call is made, and returns the clock's number for it, where
    /// the last calls alone are kept, or none. A call that isn't recorded leaves the clock as it
    /// is, which the threads of all channels of the recorder write.
    fn tick_apart(
        &self,
        recorder: &Shared,
        state: &mut ChannelState,
        (actor, called_at): (Actor, CallSite),
    ) -> u64 {
        state.note_last_send();
        if state.has_full_chunk() {
            state.turn_chunks();
        }
        if state.fills_chunk() {
            state.resize_chunk();
        }
        if state.paused.is_some() && !state.goes_on(recorder) {
            let (paused, is_shared) = (state.paused.as_mut(), state.shares_clock);
            return paused.map_or(0, |paused| paused.tick(recorder, is_shared));
        }
        let Some(last) = &mut state.last_calls else {
            return 0;
        };
        let clock = recorder.tick(state.shares_clock);
        last.add(called_at, actor, clock + 1);
        clock
    }

    /// As [`tick_apart`](RecordedChannel::tick_apart), once a channel of the recorder has recorded
    /// as many calls as a journal takes. This one then keeps its last calls alone, or none.
    fn tick_past_limit(
        &self,
        recorder: &Shared,
        state: &mut ChannelState,
        caller: (Actor, CallSite),
    ) -> u64 {
        if recorder.has_ended() || state.keep_last(recorder.times).is_err() {
            self.end_recording(state);
            return 0;
        }
        self.tick_apart(recorder, state, caller)
    }

    /// Ends the recording of this channel, whose state this is. A replay no longer orders its
    /// calls.
    #[cold]
    fn end_recording(&self, state: &mut ChannelState) {
        state.end_recording();
        if let Some(ordered) = &self.ordered {
            ordered.set_free();
        }
    }

    /// Makes room for a further handle in a channel that keeps its last calls, or ends the
    /// recording of this channel, since no journal can name a further handle of it.
    #[cold]
    pub(super) fn end_for_handles(&self, state: &mut ChannelState) {
        if state.make_room_for_handles() {
            return;
        }
        let is_paused = state.pause();
        if !is_paused {
            self.end_recording(state);
        }
        if let Some(recorder) = &self.recorder.0 {
            recorder.tell_of_too_many_handles(is_paused);
        }
    }

    /// Ends a call that has left no entry and replied so, and returns its reply. A call for which
    /// the journal had no room wasn't made: the recording of all channels ends at it, and it is
    /// made now.
    #[cold]
    pub(super) fn end_unrecorded<C: CoreCall>(
        &self,
        state: &mut ChannelState,
        permit: Option<Permit<'_>>,
        (caller, handle): (Caller, u32),
        (mut reply, mut told): (Reply, C::Told),
        call: C,
    ) -> (Reply, C::Told) {
        let called_at = state.remove_location();
        if reply == Reply::JournalFull {
            if !self.goes_on_past_limit(state, (caller, called_at)) {
                self.end_recording(state);
            }
            (reply, told) = call.make(state, caller, handle);
            if reply.answers() {
                return (reply, told);
            }
            state.remove_location();
        }
        if let Some(permit) = permit {
            permit.would_wait();
        }
        (reply.expect_made(), told)
    }

    /// Whether the last calls of this channel are kept from now on, since the journal has no room
    /// for all. Else the recording of all channels ends here.
    fn goes_on_past_limit(
        &self,
        state: &mut ChannelState,
        (caller, called_at): (Caller, CallSite),
    ) -> bool {
        let (Some(recorder), true) = (&self.recorder.0, state.is_recorded) else {
            return false;
        };
        if recorder.may_go_on() && state.keep_last(recorder.times).is_ok() {
            recorder.go_on();
            if let Some(last) = &mut state.last_calls {
                last.add(called_at, caller.actor, caller.clock + 1);
            }
            return true;
        }
        recorder.end_at(caller.clock);
        false
    }
}
