//! The last calls of a channel: what is copied of them, and the window that a journal has of them.

use super::Actor;
use yovanelum_core::shim::alloc::Global;
use yovanelum_core::source::rw_journal;
use yovanelum_core::source::rw_law::NoMemory;
use yovanelum_core::source::rw_recording::{self, Recording};

pub(crate) use rw_recording::WindowFault;

/// How many calls a channel keeps at most in each of its two chunks.
pub(crate) use rw_journal::MOST_CHUNK;

/// How many entries a channel has in a journal at most.
pub(crate) const ENTRIES_AT_MOST: u64 = rw_journal::MOST_ENTRIES as u64;

/// The actor of a lead's calls, which nobody has made.
pub(crate) const LEAD: Actor = Actor(Actor::MOST as u32 - 1);

/// The last calls of a channel, and the channel as it was before them.
pub(crate) struct Kept(rw_recording::Kept);

impl Kept {
    pub(super) fn of(kept: rw_recording::Kept) -> Kept {
        Kept(kept)
    }

    /// How many calls it has.
    pub(crate) fn len(&self) -> u64 {
        self.0.len()
    }

    /// How many values were sent before, on a broadcast.
    pub(crate) fn sent(&self) -> u64 {
        self.0.sent()
    }

    /// Begins behind the last call that asks a receiver which lags by more than this.
    pub(crate) fn settle(&mut self, most: u64) -> Result<(), NoMemory> {
        self.0.settle(Global, most)
    }

    /// Leaves out this many of its first calls.
    pub(crate) fn skip(&mut self, count: u64) -> Result<(), NoMemory> {
        self.0.skip(Global, count)
    }

    /// Begins a window by its lead, whose entries have the stamps after `clock`.
    pub(crate) fn lead(self, clock: u64) -> Result<Lead, WindowFault> {
        self.0.lead(Global, LEAD.number(), clock).map(Lead)
    }
}

/// The lead of a window, before the calls that were kept.
pub(crate) struct Lead(rw_recording::Lead);

impl Lead {
    /// How many entries it has.
    pub(crate) fn len(&self) -> u64 {
        self.0.len()
    }

    /// How many calls come after it.
    pub(crate) fn calls(&self) -> u64 {
        self.0.kept_len()
    }

    /// Returns the stamp of the first one of these.
    pub(crate) fn first_stamp(&self) -> Option<u64> {
        self.0.first_stamp()
    }

    /// Forgets the lead.
    pub(crate) fn into_kept(self) -> Kept {
        Kept(self.0.into_kept())
    }

    /// Adds the calls, with their stamps raised by this.
    pub(crate) fn play(self, raised: u64) -> Result<Window, WindowFault> {
        self.0.play(raised).map(Window)
    }
}

/// A window of a channel: first a lead, and then the calls that were kept.
pub(crate) struct Window(rw_recording::Window);

impl Window {
    pub(super) fn recording(&self) -> &Recording {
        self.0.recording()
    }

    /// How many entries the lead has.
    pub(crate) fn lead(&self) -> u64 {
        self.0.lead()
    }

    /// Returns the journal's number of a handle of the channel, if the journal has it.
    pub(crate) fn number(&self, handle: u32) -> Option<u32> {
        self.0.number(handle)
    }

    /// Returns the receivers of the channel that lagged further, when the window began, than the
    /// journal says: each with how many values it had lost.
    pub(crate) fn lags(&self) -> impl Iterator<Item = (u32, u64)> {
        let dozing = self.0.dozing().iter();
        dozing.map(|dozing| (dozing.receiver, dozing.lag))
    }
}
