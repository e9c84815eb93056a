//! How many senders and receivers are alive, which questions read without the channel's lock.
//!
//! Each count is written while the channel is locked, after the core's call that creates or drops a
//! handle. So wherever the lock is free, it is that of the proved state. Who reads it while a call
//! is made gets what was before that call, or after it.

use crate::channels::handle::Kind;
use std::sync::atomic::{AtomicUsize, Ordering};

pub(crate) struct HandleCounts {
    senders: AtomicUsize,
    weak_senders: AtomicUsize,
    receivers: AtomicUsize,
}

impl HandleCounts {
    /// Those of a channel that is opened with a sender and a receiver.
    pub(crate) const fn opened() -> HandleCounts {
        HandleCounts {
            senders: AtomicUsize::new(1),
            weak_senders: AtomicUsize::new(0),
            receivers: AtomicUsize::new(1),
        }
    }

    #[inline(always)]
    fn counter(&self, kind: Kind) -> &AtomicUsize {
        match kind {
            Kind::Sender => &self.senders,
            Kind::WeakSender => &self.weak_senders,
            Kind::Receiver => &self.receivers,
        }
    }

    /// How many handles of this kind are alive.
    #[inline]
    pub(crate) fn of(&self, kind: Kind) -> usize {
        self.counter(kind).load(Ordering::Acquire)
    }

    /// Notes that a handle is created. The channel is locked.
    #[inline(always)]
    pub(crate) fn add(&self, kind: Kind) {
        let counter = self.counter(kind);
        // The lock orders those that write, so none is lost between.
        let count = counter.load(Ordering::Relaxed);
        counter.store(count + 1, Ordering::Release);
    }

    /// Notes that a handle is dropped, and returns how many are left. The channel is locked.
    #[inline(always)]
    pub(crate) fn remove(&self, kind: Kind) -> usize {
        let counter = self.counter(kind);
        let left = counter.load(Ordering::Relaxed) - 1;
        counter.store(left, Ordering::Release);
        left
    }
}
