//! Words, locks and conditions whose steps take turns. Nothing here blocks but by them.

use crate::orders::Place;
use std::ops::{Deref, DerefMut};

/// The leave to block.
pub trait Wait {
    fn forever(&self) -> std::iter::Repeat<()> {
        std::iter::repeat(())
    }
}

pub mod atomic {
    use crate::orders::Place;
    pub use std::sync::atomic::Ordering;

    /// A word. Its steps have one order, which is what [`Ordering::SeqCst`] says.
    #[derive(Debug)]
    pub struct AtomicU64(Place);

    impl AtomicU64 {
        pub fn new(number: u64) -> AtomicU64 {
            AtomicU64(Place::new(number))
        }

        pub fn load(&self, order: Ordering) -> u64 {
            assert_eq!(order, Ordering::SeqCst);
            self.0.change("load", |number| *number)
        }

        pub fn fetch_add(&self, more: u64, order: Ordering) -> u64 {
            assert_eq!(order, Ordering::SeqCst);
            self.0.change("add", |number| {
                let before = *number;
                *number = before.wrapping_add(more);
                before
            })
        }

        pub fn fetch_sub(&self, less: u64, order: Ordering) -> u64 {
            self.fetch_add(less.wrapping_neg(), order)
        }
    }
}

#[derive(Debug)]
pub struct Mutex<T> {
    place: Place,
    value: std::sync::Mutex<T>,
}

/// A lock that is held.
#[derive(Debug)]
pub struct MutexGuard<'a, T> {
    of: &'a Mutex<T>,
    // It is there until the guard is dropped.
    value: Option<std::sync::MutexGuard<'a, T>>,
}

impl<T> Mutex<T> {
    pub fn new(value: T) -> Mutex<T> {
        Mutex {
            place: Place::new(0),
            value: std::sync::Mutex::new(value),
        }
    }

    pub fn lock<R: Wait>(&self, _: &R) -> MutexGuard<'_, T> {
        self.place.lock();
        self.guard()
    }

    pub fn try_lock(&self) -> Option<MutexGuard<'_, T>> {
        self.place.try_lock().then(|| self.guard())
    }

    pub fn get_mut(&mut self) -> &mut T {
        self.value.get_mut().unwrap()
    }

    fn guard(&self) -> MutexGuard<'_, T> {
        let value = self.value.try_lock();
        MutexGuard {
            of: self,
            value: Some(value.expect("one thread has the lock")),
        }
    }
}

impl<T> Deref for MutexGuard<'_, T> {
    type Target = T;

    fn deref(&self) -> &T {
        self.value.as_ref().unwrap()
    }
}

impl<T> DerefMut for MutexGuard<'_, T> {
    fn deref_mut(&mut self) -> &mut T {
        self.value.as_mut().unwrap()
    }
}

impl<T> Drop for MutexGuard<'_, T> {
    fn drop(&mut self) {
        if self.value.take().is_some() {
            self.of.place.unlock();
        }
    }
}

#[derive(Debug)]
pub struct Condvar(Place);

impl Condvar {
    pub fn new() -> Condvar {
        Condvar(Place::new(0))
    }

    pub fn wait<'a, T, R: Wait>(&self, _: &R, mut guard: MutexGuard<'a, T>) -> MutexGuard<'a, T> {
        let lock = guard.of;
        guard.value = None;
        drop(guard);
        self.0.wait(&lock.place);
        lock.guard()
    }

    pub fn notify_all(&self) {
        self.0.wake("notify all", true);
    }

    /// For a bug alone.
    pub fn notify_one(&self) {
        self.0.wake("notify one", false);
    }
}
