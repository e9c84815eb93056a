//! The version of a watch's value, which looks read without a lock.
//!
//! One atomic says how often receivers were notified, and whether every sender is dropped. It is
//! written while the channel is locked, after the core's call. So wherever the lock is free, it
//! says what the proved state does:
//!
//! - it is closed exactly if the core has no sender;
//! - what a receiver has seen is this version exactly if the core says that it has seen the value.
//!
//! A look that reads it while a call is made returns what was before the call, or after it.

#[cfg(test)]
mod interleavings;

use std::sync::atomic::{AtomicUsize, Ordering};

/// This bit is set once every sender is dropped. The others are the version.
const CLOSED: usize = 1;
const STEP: usize = 2;

/// The version of a watch's value, and whether the watch is closed.
#[derive(Default)]
pub(super) struct Version(AtomicUsize);

/// What a receiver has seen: the version that the value had, or another one if it has yet to see
/// the value. Its calls that mark the value take it by `&mut`, or hold the channel's lock.
#[derive(Default)]
pub(super) struct SeenVersion(AtomicUsize);

impl Version {
    /// Notes that receivers are notified of a value. The channel is locked.
    #[inline(always)]
    pub(super) fn note_change(&self) {
        // The lock orders those that write, so none is lost between.
        let now = self.0.load(Ordering::Relaxed);
        self.0.store(now.wrapping_add(STEP), Ordering::Release);
    }

    /// Notes that every sender is dropped. The channel is locked.
    pub(super) fn note_close(&self) {
        let now = self.0.load(Ordering::Relaxed);
        self.0.store(now | CLOSED, Ordering::Release);
    }

    /// Returns `None` if every sender is dropped, and else whether the value is another one than
    /// this receiver has seen.
    #[inline]
    pub(super) fn changed_since(&self, seen: &SeenVersion) -> Option<bool> {
        let now = self.0.load(Ordering::Acquire);
        match now & CLOSED {
            0 => Some(seen.differs_from(now)),
            _ => None,
        }
    }

    /// Whether the value is another one than this receiver has seen, also if the watch is closed.
    #[inline(always)]
    pub(super) fn is_unseen_by(&self, seen: &SeenVersion) -> bool {
        seen.differs_from(self.0.load(Ordering::Acquire) & !CLOSED)
    }

    /// Returns what a receiver has seen that sees the value now. The channel is locked.
    #[inline(always)]
    pub(super) fn seen_now(&self) -> SeenVersion {
        SeenVersion(AtomicUsize::new(self.0.load(Ordering::Relaxed) & !CLOSED))
    }

    /// The number of the version, and whether the watch is closed.
    pub(super) fn now(&self) -> (usize, bool) {
        let now = self.0.load(Ordering::Acquire);
        (now & !CLOSED, now & CLOSED != 0)
    }
}

impl SeenVersion {
    #[inline(always)]
    fn differs_from(&self, version: usize) -> bool {
        self.0.load(Ordering::Relaxed) != version
    }

    /// Marks the value as seen. The channel is locked.
    #[inline(always)]
    pub(super) fn see(&self, version: &Version) {
        let now = version.0.load(Ordering::Relaxed) & !CLOSED;
        self.0.store(now, Ordering::Relaxed);
    }

    /// Marks the value as unseen. The channel is locked.
    pub(super) fn unsee(&self, version: &Version) {
        let now = version.0.load(Ordering::Relaxed) & !CLOSED;
        self.0.store(now.wrapping_sub(STEP), Ordering::Relaxed);
    }

    /// The number of the version.
    pub(super) fn number(&self) -> usize {
        self.0.load(Ordering::Relaxed)
    }
}

impl Clone for SeenVersion {
    fn clone(&self) -> SeenVersion {
        SeenVersion(AtomicUsize::new(self.number()))
    }
}
