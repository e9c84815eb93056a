//! The value of a watch, and the lock that guards it.
#![allow(unsafe_code)]

use super::looks::LiveLooks;
use super::version::Version;
use crate::channels::lock::lock;
use crate::channels::reentrant::thread_number;
use std::mem::MaybeUninit;
use std::panic::{self, AssertUnwindSafe};
use std::sync::atomic::{AtomicUsize, Ordering};
use std::sync::{
    LockResult, Mutex, PoisonError, RwLock, RwLockReadGuard, RwLockWriteGuard, TryLockError,
    TryLockResult,
};
use std::thread;

/// The value of a watch with its lock, which is acquired before that of the channel. As in tokio, a
/// `Ref` of the value blocks senders.
pub(super) struct ValueLock<T> {
    value: RwLock<T>,
    // The threads that have locked the value and run user code: the one that may change it, or 0,
    // and those that look at it. If that code waited for the lock, it would wait forever.
    changed_by: AtomicUsize,
    read_by: Mutex<Vec<usize>>,
    /// The looks that hold the lock, as far as they are known.
    pub(super) looks: LiveLooks,
    /// What looks read without the channel's lock.
    pub(super) version: Version,
}

impl<T> ValueLock<T> {
    /// Writes the lock of this value into its place, part by part: the value may be large, and
    /// nothing with it is moved.
    pub(super) fn store(place: &mut MaybeUninit<ValueLock<T>>, value: T) -> &mut ValueLock<T> {
        let lock = place.as_mut_ptr();
        // SAFETY: all parts are written, each into its place, before the whole is said to be.
        unsafe {
            (&raw mut (*lock).value).write(RwLock::new(value));
            (&raw mut (*lock).changed_by).write(AtomicUsize::new(0));
            (&raw mut (*lock).read_by).write(Mutex::default());
            (&raw mut (*lock).looks).write(LiveLooks::default());
            (&raw mut (*lock).version).write(Version::default());
            place.assume_init_mut()
        }
    }

    /// Returns the value with std's lock, to be formatted.
    pub(super) fn value(&self) -> &RwLock<T> {
        &self.value
    }

    /// Waits until nobody changes the value, and locks it.
    #[cold]
    pub(super) fn read(&self) -> RwLockReadGuard<'_, T> {
        self.lock_by(RwLock::read)
    }

    /// Waits until nobody looks at the value or changes it, and locks it.
    #[cold]
    pub(super) fn write(&self) -> RwLockWriteGuard<'_, T> {
        self.lock_by(RwLock::write)
    }

    /// Locks the value if nobody changes it.
    pub(super) fn try_read(&self) -> Option<RwLockReadGuard<'_, T>> {
        if_free(self.value.try_read())
    }

    /// Locks the value if nobody has locked it.
    pub(super) fn try_write(&self) -> Option<RwLockWriteGuard<'_, T>> {
        if_free(self.value.try_write())
    }

    /// Waits until the value can be locked. Panics if that would never be.
    #[cold]
    fn lock_by<'a, G>(&'a self, by: impl FnOnce(&'a RwLock<T>) -> LockResult<G>) -> G {
        assert!(
            !self.is_used_by(thread_number()),
            "yovanelum: a closure that is given the value of a watch, or the function for its text, uses that watch"
        );
        by(&self.value).unwrap_or_else(PoisonError::into_inner)
    }

    fn is_used_by(&self, thread: usize) -> bool {
        self.changed_by.load(Ordering::Relaxed) == thread || lock(&self.read_by).contains(&thread)
    }

    /// Runs user code while this thread has locked the value to change it. If the code panics, its
    /// panic is returned.
    pub(super) fn run_changing<R>(&self, run: impl FnOnce() -> R) -> thread::Result<R> {
        self.changed_by.store(thread_number(), Ordering::Relaxed);
        let result = panic::catch_unwind(AssertUnwindSafe(run));
        self.changed_by.store(0, Ordering::Relaxed);
        result
    }

    /// Runs user code while this thread has locked the value to read it.
    pub(super) fn run_reading<R>(&self, run: impl FnOnce() -> R) -> R {
        let _reader = ReadingThread::new(&self.read_by);
        run()
    }
}

/// A thread that reads a value, until this is dropped.
struct ReadingThread<'a> {
    all: &'a Mutex<Vec<usize>>,
    thread: usize,
}

impl<'a> ReadingThread<'a> {
    fn new(all: &'a Mutex<Vec<usize>>) -> ReadingThread<'a> {
        let thread = thread_number();
        lock(all).push(thread);
        ReadingThread { all, thread }
    }
}

impl Drop for ReadingThread<'_> {
    fn drop(&mut self) {
        let mut all = lock(self.all);
        if let Some(index) = all.iter().position(|thread| *thread == self.thread) {
            all.swap_remove(index);
        }
    }
}

/// Returns the guard if the lock was free. A poisoned lock is used all the same.
fn if_free<G>(tried: TryLockResult<G>) -> Option<G> {
    match tried {
        Ok(guard) => Some(guard),
        Err(TryLockError::Poisoned(guard)) => Some(guard.into_inner()),
        Err(TryLockError::WouldBlock) => None,
    }
}
