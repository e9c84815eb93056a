//! The entrance of both gates, that of a replay and that of a run that is explored.

use crate::channels::lock::lock;
use std::sync::atomic::{AtomicBool, AtomicUsize, Ordering};
use std::sync::{Condvar, Mutex, MutexGuard};

/// Where callers come to a gate, one after the other: `S` is who stands there, and whose turn it
/// is.
pub(super) struct Entrance<S> {
    state: Mutex<S>,
    /// How many callers have come, and have yet to lock the state.
    entering: AtomicUsize,
    /// What the thread waits on that wakes futures.
    pub(super) helper: Condvar,
    is_over: AtomicBool,
}

impl<S> Entrance<S> {
    pub(super) fn new(state: S, is_over: bool) -> Entrance<S> {
        Entrance {
            state: Mutex::new(state),
            entering: AtomicUsize::new(0),
            helper: Condvar::new(),
            is_over: AtomicBool::new(is_over),
        }
    }

    /// Locks the state for a caller. While one waits for the lock, its thread would seem to sleep,
    /// so it is counted.
    pub(super) fn enter(&self) -> MutexGuard<'_, S> {
        self.entering.fetch_add(1, Ordering::SeqCst);
        let state = lock(&self.state);
        self.entering.fetch_sub(1, Ordering::SeqCst);
        state
    }

    /// Locks the state for whoever isn't a caller.
    pub(super) fn lock(&self) -> MutexGuard<'_, S> {
        lock(&self.state)
    }

    /// Whether no caller is about to lock the state.
    pub(super) fn is_still(&self) -> bool {
        self.entering.load(Ordering::SeqCst) == 0
    }

    /// Whether all calls pass.
    #[inline]
    pub(super) fn is_over(&self) -> bool {
        self.is_over.load(Ordering::Acquire)
    }

    /// Lets all calls pass from now on. Whoever waits has yet to be woken.
    pub(super) fn open(&self) {
        self.is_over.store(true, Ordering::Release);
    }

    /// Wakes the helper if it sleeps for good, so that what is added isn't forgotten.
    pub(super) fn keep_awake(&self, is_helper_idle: bool) {
        if is_helper_idle {
            self.helper.notify_one();
        }
    }
}
