//! How the whole crate locks a mutex: also one that is poisoned, and for a time alone where the
//! thread may hold it itself.

use std::ops::DerefMut;
use std::sync::{Arc, LazyLock, Mutex, MutexGuard, TryLockError};
use std::thread;
use std::time::{Duration, Instant};

/// What is locked: a mutex, or the lock of a channel.
pub(crate) trait Lockable {
    type Value;
    type Guard<'a>: DerefMut<Target = Self::Value>
    where
        Self: 'a;

    fn acquire(&self) -> Self::Guard<'_>;

    /// Returns `None` if it isn't free.
    fn try_acquire(&self) -> Option<Self::Guard<'_>>;
}

impl<T> Lockable for Mutex<T> {
    type Value = T;
    type Guard<'a>
        = MutexGuard<'a, T>
    where
        T: 'a;

    #[inline]
    fn acquire(&self) -> MutexGuard<'_, T> {
        match self.lock() {
            Ok(guard) => guard,
            Err(poisoned) => poisoned.into_inner(),
        }
    }

    fn try_acquire(&self) -> Option<MutexGuard<'_, T>> {
        match self.try_lock() {
            Ok(guard) => Some(guard),
            Err(TryLockError::Poisoned(poisoned)) => Some(poisoned.into_inner()),
            Err(TryLockError::WouldBlock) => None,
        }
    }
}

/// What leads to it.
macro_rules! lockable_by {
    ($($owner:ty)*) => {
        $(impl<L: Lockable> Lockable for $owner {
            type Value = L::Value;
            type Guard<'a>
                = L::Guard<'a>
            where
                Self: 'a;

            #[inline]
            fn acquire(&self) -> L::Guard<'_> {
                L::acquire(self)
            }

            fn try_acquire(&self) -> Option<L::Guard<'_>> {
                L::try_acquire(self)
            }
        })*
    };
}

lockable_by! { &L Arc<L> LazyLock<L> }

/// Locks a mutex, even if it is poisoned: what it guards is whole between calls, and the journal of
/// a test that panics must not be lost.
#[inline]
pub(crate) fn lock<L: Lockable>(mutex: &L) -> L::Guard<'_> {
    mutex.acquire()
}

/// Locks a mutex as [`lock`] does, unless it isn't free for this time. It is for a thread that may
/// hold the lock itself.
pub(crate) fn try_lock_for<L: Lockable>(mutex: &L, patience: Duration) -> Option<L::Guard<'_>> {
    let began = Instant::now();
    loop {
        let guard = mutex.try_acquire();
        if guard.is_some() || began.elapsed() > patience {
            return guard;
        }
        thread::sleep(Duration::from_millis(1));
    }
}

#[cfg(test)]
mod tests {
    use super::*;

    #[test]
    fn a_lock_that_this_thread_holds_is_given_up() {
        let mutex = Mutex::new(5);
        let held = lock(&mutex);
        assert!(try_lock_for(&mutex, Duration::ZERO).is_none());
        drop(held);
        assert_eq!(try_lock_for(&mutex, Duration::ZERO).map(|it| *it), Some(5));
    }
}
