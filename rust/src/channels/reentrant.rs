//! A value that threads use in turn, and that a thread may use again within its own use. A
//! broadcast keeps the values in it that several receivers clone.
#![allow(unsafe_code)]

use crate::channels::channel_lock::ChannelLock;
use std::sync::atomic::{AtomicUsize, Ordering};

/// A value that one thread at a time uses, by reference. Within its use that thread may use it
/// again, where a `Mutex` would wait for itself.
pub(crate) struct Reentrant<T> {
    value: T,
    in_use: ChannelLock<()>,
    // The thread that uses it, or 0.
    user: AtomicUsize,
}

// SAFETY: the value is used by one thread at a time, so a `T` that may be sent is never used by
// two.
unsafe impl<T: Send> Sync for Reentrant<T> {}

/// Ends the use by this thread when it is dropped, also if the use panics.
struct UseGuard<'a>(&'a AtomicUsize);

impl Drop for UseGuard<'_> {
    #[inline]
    fn drop(&mut self) {
        self.0.store(0, Ordering::Relaxed);
    }
}

impl<T> Reentrant<T> {
    pub(crate) fn new(value: T) -> Reentrant<T> {
        Reentrant {
            value,
            in_use: ChannelLock::new(()),
            user: AtomicUsize::new(0),
        }
    }

    /// Waits until no other thread uses the value, and uses it.
    #[inline]
    pub(crate) fn with<R>(&self, user: impl FnOnce(&T) -> R) -> R {
        let this = thread_number();
        // Only this thread writes its number, so if it is read here, an outer use is going on,
        // which holds the lock until this one ends.
        if self.user.load(Ordering::Relaxed) == this {
            return user(&self.value);
        }
        let _locked = self.in_use.lock();
        self.user.store(this, Ordering::Relaxed);
        let _guard = UseGuard(&self.user);
        user(&self.value)
    }
}

/// Returns a number that no other live thread has, and that isn't 0.
#[inline]
pub(crate) fn thread_number() -> usize {
    thread_local! {
        static MARKER: u8 = const { 0 };
    }
    MARKER.with(|marker| std::ptr::from_ref(marker).addr())
}

#[cfg(test)]
mod tests {
    use super::*;
    use std::cell::Cell;
    use std::panic::{AssertUnwindSafe, catch_unwind};
    use std::thread;

    #[test]
    #[cfg_attr(target_family = "wasm", ignore = "WebAssembly has no threads")]
    fn threads_use_a_value_in_turn_and_each_within_its_use() {
        const EACH: u32 = 5_000;
        let counter = Reentrant::new(Cell::new(0));
        thread::scope(|scope| {
            for _ in 0..4 {
                scope.spawn(|| {
                    for _ in 0..EACH {
                        counter.with(|count| {
                            let before = count.get();
                            counter.with(|count| count.set(count.get() + 1));
                            count.set(count.get() + 1);
                            assert_eq!(count.get(), before + 2);
                        });
                    }
                });
            }
        });
        assert_eq!(counter.with(Cell::get), 4 * EACH * 2);
    }

    #[test]
    #[cfg_attr(target_family = "wasm", ignore = "WebAssembly ends at the first panic")]
    fn a_use_that_panics_ends_its_turn() {
        let value = Reentrant::new(5);
        let panicked = catch_unwind(AssertUnwindSafe(|| value.with(|_| panic!("in the use"))));
        assert!(panicked.is_err());
        thread::scope(|scope| {
            let other = scope.spawn(|| value.with(|value| *value));
            assert_eq!(other.join().unwrap(), 5);
        });
    }
}
