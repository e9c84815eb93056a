//! Locks and conditions, over Rust's own.
//!
//! Rattle's locks aren't poisoned: there is no unwinding, and what is proved doesn't panic. So a
//! poisoned lock is acquired here too.

pub use std::sync::{MutexGuard, atomic};
use std::sync::{PoisonError, TryLockError};

/// The leave to block.
pub trait Wait {
    /// Returns an iterator without an end, for loops that wait.
    ///
    /// Rattle's clause: each `next` is `Some`.
    fn forever(&self) -> std::iter::Repeat<()> {
        std::iter::repeat(())
    }
}

/// A value that one thread at a time may write through a `&`. No clause of Rattle's says which
/// value it has.
#[derive(Debug)]
pub struct Mutex<T>(std::sync::Mutex<T>);

impl<T> Mutex<T> {
    pub fn new(value: T) -> Mutex<T> {
        Mutex(std::sync::Mutex::new(value))
    }

    /// Acquires the lock, and blocks until it is free.
    pub fn lock<R: Wait>(&self, _: &R) -> MutexGuard<'_, T> {
        self.0.lock().unwrap_or_else(PoisonError::into_inner)
    }

    /// Acquires the lock if it is free.
    pub fn try_lock(&self) -> Option<MutexGuard<'_, T>> {
        match self.0.try_lock() {
            Ok(guard) => Some(guard),
            Err(TryLockError::Poisoned(poisoned)) => Some(poisoned.into_inner()),
            Err(TryLockError::WouldBlock) => None,
        }
    }

    /// Returns the value, which needs no lock.
    pub fn get_mut(&mut self) -> &mut T {
        self.0.get_mut().unwrap_or_else(PoisonError::into_inner)
    }
}

/// What threads wait for under a lock.
#[derive(Debug)]
pub struct Condvar(std::sync::Condvar);

impl Condvar {
    pub fn new() -> Condvar {
        Condvar(std::sync::Condvar::new())
    }

    /// Releases the lock and waits in one step, and acquires it again. It may return without a
    /// notification, in Rattle as in Rust.
    pub fn wait<'a, T, R: Wait>(&self, _: &R, guard: MutexGuard<'a, T>) -> MutexGuard<'a, T> {
        self.0.wait(guard).unwrap_or_else(PoisonError::into_inner)
    }

    pub fn notify_all(&self) {
        self.0.notify_all();
    }
}
