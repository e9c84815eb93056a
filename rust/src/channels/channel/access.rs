//! How a call locks its channel: by what it is made, and by whom.

use super::{CallSite, LockedChannel, RecordedChannel};
use crate::channels::actors::{self, CallerNumber};
use crate::channels::backend::Actor;
use crate::channels::recorder::Shared;
use crate::channels::turns::Permit;
use yovanelum_record::operation::Operation;

/// By what a call is made, before it locks its channel. Of a channel without a recorder that is
/// nothing, and whoever asks for that once has calls that ask for it no more.
pub(crate) struct Access<'a> {
    pub(crate) recorder: Option<&'a Shared>,
    // Of the next call, in a replay.
    pub(crate) permit: Option<Permit<'a>>,
}

impl Access<'_> {
    /// That of a channel without a recorder.
    pub(crate) const UNRECORDED: Access<'static> = Access {
        recorder: None,
        permit: None,
    };
}

/// Who calls a channel without a recorder, which notes it at a send alone.
const NOT_NOTED: (Actor, CallerNumber) = (Actor::FIRST, CallerNumber::NOBODY);

impl RecordedChannel {
    /// Locks the channel for a call by the handle with this number, which is made here in the
    /// source, and has its turn by this permit.
    #[cfg_attr(debug_assertions, inline(never))]
    #[cfg_attr(not(debug_assertions), inline)]
    pub(crate) fn lock<'a>(
        &'a self,
        permit: Option<Permit<'a>>,
        handle: u32,
        called_at: CallSite,
    ) -> LockedChannel<'a> {
        let recorder = self.recorder.0.as_deref();
        self.lock_with(Access { recorder, permit }, handle, called_at)
    }

    /// Locks the channel for a call by the handle with this number, which is made here in the
    /// source, once its turn in a replay has come.
    #[cfg_attr(debug_assertions, inline(never))]
    #[cfg_attr(not(debug_assertions), inline(always))]
    pub(crate) fn lock_in_turn(
        &self,
        handle: u32,
        word: Operation,
        called_at: CallSite,
    ) -> LockedChannel<'_> {
        let Some(recorder) = &self.recorder.0 else {
            return LockedChannel::of(self, Access::UNRECORDED, NOT_NOTED, handle, called_at);
        };
        // Without optimization it is a call each time that the recorder is found by its `Arc`.
        let recorder: &Shared = recorder;
        let permit = match self.ordered {
            Some(_) => self.pass_gate(handle, word, called_at),
            None => None,
        };
        let by = actors::current(recorder.id, |task| recorder.find_actor(task, called_at));
        let access = Access {
            recorder: Some(recorder),
            permit,
        };
        LockedChannel::of(self, access, by, handle, called_at)
    }

    /// Waits for the turn of a call by the handle with this number in a replay. It is called before
    /// a lock is acquired.
    #[inline(always)]
    pub(crate) fn pass(&self, handle: u32, word: Operation, called_at: CallSite) -> Access<'_> {
        let Some(recorder) = &self.recorder.0 else {
            return Access::UNRECORDED;
        };
        let permit = match self.ordered {
            Some(_) => self.pass_gate(handle, word, called_at),
            None => None,
        };
        Access {
            recorder: Some(recorder),
            permit,
        }
    }

    /// Locks the channel, as [`lock`](RecordedChannel::lock) does, by what the call has.
    #[inline(always)]
    pub(crate) fn lock_with<'a>(
        &'a self,
        access: Access<'a>,
        handle: u32,
        called_at: CallSite,
    ) -> LockedChannel<'a> {
        let by = match access.recorder {
            Some(recorder) => recorder.caller(called_at),
            None => NOT_NOTED,
        };
        LockedChannel::of(self, access, by, handle, called_at)
    }
}
