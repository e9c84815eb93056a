//! The looks at a value that are alive: a [`Ref`](super::Ref) holds the value's lock, and a call
//! that waits for that lock says whose look it is.

use crate::channels::channel::LockedChannel;
use crate::channels::wait::Look;
use std::sync::atomic::{AtomicBool, Ordering};

/// How many looks of a channel are noted at once. Later ones hold the lock too, and nobody is told
/// whose they are.
const NOTED: usize = 8;

/// Which of the noted looks are alive. A look is noted while its channel is locked, and ends
/// without that lock.
#[derive(Default)]
pub(super) struct LiveLooks([AtomicBool; NOTED]);

/// A noted look, which ends when this is dropped.
pub(super) struct LiveLook<'a>(&'a AtomicBool);

impl LiveLooks {
    /// Notes the look of the call for which the channel is locked, if a recorder asks and there is
    /// room.
    #[inline]
    pub(super) fn note(&self, channel: &mut LockedChannel<'_>) -> Option<LiveLook<'_>> {
        if !channel.has_recorder() {
            return None;
        }
        let is_free = |is_alive: &AtomicBool| !is_alive.load(Ordering::Acquire);
        // Most often none is alive.
        let index = if is_free(&self.0[0]) {
            0
        } else {
            self.0.iter().position(is_free)?
        };
        channel.note_look(index);
        self.0[index].store(true, Ordering::Relaxed);
        Some(LiveLook(&self.0[index]))
    }

    /// Returns a look that is alive, if one is noted.
    pub(super) fn first(&self, channel: &LockedChannel<'_>) -> Option<Look> {
        let is_alive = |is_alive: &AtomicBool| is_alive.load(Ordering::Acquire);
        channel.look(self.0.iter().position(is_alive)?)
    }
}

impl Drop for LiveLook<'_> {
    #[inline]
    fn drop(&mut self) {
        self.0.store(false, Ordering::Release);
    }
}
