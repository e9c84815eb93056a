//! The lock of a channel, which each of its calls acquires and releases. A value that several
//! receivers clone has one, too.
#![allow(unsafe_code)]

use super::lock::{Lockable, lock};
use std::cell::UnsafeCell;
use std::hint::spin_loop;
use std::marker::PhantomData;
use std::ops::{Deref, DerefMut};
use std::sync::atomic::{AtomicU32, Ordering};
use std::sync::{Condvar, Mutex, PoisonError};

const FREE: u32 = 0;
/// Of a lock that is held, this bit is set.
const HELD: u32 = 1;
/// Held, and some thread may sleep until it is free.
const AWAITED: u32 = 2 | HELD;

/// How often a thread looks whether the lock is free before it sleeps.
const LOOKS: usize = 100;

/// A mutex that is never poisoned: what it guards is whole between calls, and the journal of a test
/// that panics must not be lost. So none of its calls asks whether the thread panics.
// The value is first, so that its address is that of the lock, and isn't computed at each call.
#[repr(C)]
pub(crate) struct ChannelLock<T> {
    value: UnsafeCell<T>,
    word: AtomicU32,
    sleeping: Mutex<()>,
    freed: Condvar,
}

// SAFETY: the value is borrowed by one thread at a time, the one that holds the lock.
unsafe impl<T: Send> Send for ChannelLock<T> {}
unsafe impl<T: Send> Sync for ChannelLock<T> {}

impl<T> ChannelLock<T> {
    pub(crate) fn new(value: T) -> ChannelLock<T> {
        ChannelLock {
            value: UnsafeCell::new(value),
            word: AtomicU32::new(FREE),
            sleeping: Mutex::new(()),
            freed: Condvar::new(),
        }
    }

    /// Returns the value of a lock that no other thread knows.
    pub(crate) fn get_mut(&mut self) -> &mut T {
        self.value.get_mut()
    }

    /// Returns the address of the value.
    pub(crate) fn address(&self) -> *const T {
        self.value.get()
    }

    /// Acquires the lock, once no other thread holds it.
    #[inline(always)]
    pub(crate) fn lock(&self) -> ChannelGuard<'_, T> {
        // As `acquires` does.
        if self.word.fetch_or(HELD, Ordering::Acquire) & HELD != 0 {
            self.wait();
        }
        ChannelGuard::of(self)
    }

    /// Acquires the lock, unless another thread, or this one, holds it.
    pub(crate) fn try_lock(&self) -> Option<ChannelGuard<'_, T>> {
        self.acquires().then_some(ChannelGuard::of(self))
    }

    #[inline(always)]
    fn acquires(&self) -> bool {
        // Whoever finds it held changes nothing: if it is awaited, it still is.
        self.word.fetch_or(HELD, Ordering::Acquire) & HELD == 0
    }

    /// Waits until the lock is free, and acquires it.
    #[cold]
    #[inline(never)]
    fn wait(&self) {
        let mut looks = LOOKS;
        while looks > 0 && self.word.load(Ordering::Relaxed) == HELD {
            looks -= 1;
            spin_loop();
        }
        if self.acquires() {
            return;
        }
        // Others may sleep too, so whoever acquires it here leaves it awaited.
        let mut sleeping = lock(&self.sleeping);
        while self.word.swap(AWAITED, Ordering::Acquire) != FREE {
            let woken = self.freed.wait(sleeping);
            sleeping = woken.unwrap_or_else(PoisonError::into_inner);
        }
    }

    /// Wakes a thread that sleeps. One that has seen the lock held, and doesn't sleep yet, holds
    /// `sleeping` until it does.
    #[cold]
    #[inline(never)]
    fn wake(&self) {
        drop(lock(&self.sleeping));
        self.freed.notify_one();
    }
}

impl<T> Lockable for ChannelLock<T> {
    type Value = T;
    type Guard<'a>
        = ChannelGuard<'a, T>
    where
        T: 'a;

    #[inline(always)]
    fn acquire(&self) -> ChannelGuard<'_, T> {
        self.lock()
    }

    fn try_acquire(&self) -> Option<ChannelGuard<'_, T>> {
        self.try_lock()
    }
}

/// The value of a lock that is held. It is released when this is dropped.
///
/// Threads may share it only where they may share the value, as if this borrowed that alone.
pub(crate) struct ChannelGuard<'a, T>(&'a ChannelLock<T>, PhantomData<&'a mut T>);

impl<'a, T> ChannelGuard<'a, T> {
    #[inline(always)]
    fn of(lock: &'a ChannelLock<T>) -> ChannelGuard<'a, T> {
        ChannelGuard(lock, PhantomData)
    }
}

impl<T> Deref for ChannelGuard<'_, T> {
    type Target = T;

    #[inline(always)]
    fn deref(&self) -> &T {
        // SAFETY: the lock is held, and this is borrowed as long.
        unsafe { &*self.0.value.get() }
    }
}

impl<T> DerefMut for ChannelGuard<'_, T> {
    #[inline(always)]
    fn deref_mut(&mut self) -> &mut T {
        // SAFETY: as above, and this is borrowed by one.
        unsafe { &mut *self.0.value.get() }
    }
}

impl<T> Drop for ChannelGuard<'_, T> {
    #[inline(always)]
    fn drop(&mut self) {
        if self.0.word.swap(FREE, Ordering::Release) == AWAITED {
            self.0.wake();
        }
    }
}

#[cfg(test)]
mod tests {
    use super::*;
    use std::panic::{AssertUnwindSafe, catch_unwind};
    use std::sync::Barrier;
    use std::thread;

    /// Compiles only where the guard of a value that no two threads may share isn't shared either:
    /// else both implementations fit.
    #[test]
    fn a_guard_is_shared_only_where_its_value_may_be() {
        trait IsNotShared<Which> {
            const HOLDS: bool = true;
        }
        struct IfShared;
        impl<T> IsNotShared<()> for T {}
        impl<T: Sync> IsNotShared<IfShared> for T {}
        const { assert!(<ChannelGuard<'static, std::cell::Cell<u32>> as IsNotShared<_>>::HOLDS) };
        fn is_shared<T: Sync>() {}
        is_shared::<ChannelGuard<'static, u32>>();
    }

    #[test]
    #[cfg_attr(target_family = "wasm", ignore = "WebAssembly has no threads")]
    fn threads_change_the_value_in_turn() {
        const EACH: u64 = 20_000;
        const THREADS: usize = 4;
        let (count, barrier) = (ChannelLock::new(0), Barrier::new(THREADS));
        thread::scope(|scope| {
            for _ in 0..THREADS {
                scope.spawn(|| {
                    barrier.wait();
                    for number in 0..EACH {
                        let mut count = count.lock();
                        let before = *count;
                        if number % 64 == 0 {
                            // Others look in vain meanwhile, and sleep.
                            thread::yield_now();
                        }
                        *count = before + 1;
                    }
                });
            }
        });
        assert_eq!(*count.lock(), EACH * THREADS as u64);
    }

    #[test]
    #[cfg_attr(target_family = "wasm", ignore = "WebAssembly has no threads")]
    fn each_of_many_that_sleep_is_woken() {
        let count = ChannelLock::new(0);
        thread::scope(|scope| {
            let held = count.lock();
            for _ in 0..8 {
                scope.spawn(|| *count.lock() += 1);
            }
            // One at least begins to sleep, which it says by the word.
            while count.word.load(Ordering::Relaxed) != AWAITED {
                thread::yield_now();
            }
            drop(held);
        });
        assert_eq!(*count.lock(), 8);
    }

    #[test]
    #[cfg_attr(target_family = "wasm", ignore = "WebAssembly ends at the first panic")]
    fn a_lock_is_free_after_a_panic_and_not_while_it_is_held() {
        let value = ChannelLock::new(5);
        let panicked = catch_unwind(AssertUnwindSafe(|| {
            let _held = value.lock();
            assert!(value.try_lock().is_none());
            panic!("while it is held");
        }));
        assert!(panicked.is_err());
        assert_eq!(value.try_lock().map(|it| *it), Some(5));
    }
}
