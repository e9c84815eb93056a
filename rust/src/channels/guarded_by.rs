//! A value that a lock elsewhere guards: those of a broadcast are under the lock of their channel.
#![allow(unsafe_code)]

use std::cell::UnsafeCell;
use std::ptr;

/// A value that is guarded by the lock of a `K`, but stored apart from it: it is borrowed together
/// with a `&mut K`. So the values of a channel, whose type may borrow, and its core, which a
/// recorder shares, are under one lock.
pub(crate) struct GuardedBy<K, T> {
    key: *const K,
    value: UnsafeCell<T>,
}

// SAFETY: the value is borrowed by one thread at a time, the one that has the `&mut K`.
unsafe impl<K, T: Send> Send for GuardedBy<K, T> {}
unsafe impl<K, T: Send> Sync for GuardedBy<K, T> {}

impl<K, T> GuardedBy<K, T> {
    /// Returns a value that is borrowed together with the `K` at this address.
    pub(crate) fn new(key: *const K, value: T) -> GuardedBy<K, T> {
        const { assert!(size_of::<K>() > 0) };
        GuardedBy {
            key,
            value: UnsafeCell::new(value),
        }
    }

    /// Borrows the value.
    ///
    /// # Panics
    ///
    /// Panics if this is another `K` than the value was created with.
    #[inline(always)]
    pub(crate) fn borrow_mut<'a>(&'a self, key: &'a mut K) -> &'a mut T {
        assert!(
            ptr::eq(self.key, key),
            "the value is guarded by another lock"
        );
        // SAFETY: there is one `&mut` at a time to the address of the key, since a `K` isn't
        // zero-sized, and this one is borrowed as long as the value.
        unsafe { &mut *self.value.get() }
    }
}
