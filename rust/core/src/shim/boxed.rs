//! `Box`, whose allocation can fail.
//!
//! Stable Rust has no such `Box`, but a vector's memory can be asked for. So the box is made of a
//! vector of one item, whose block becomes the box's without another request: the vector was asked
//! to have room for exactly one.

use super::alloc::{AllocFailed, Global};
use std::fmt;
use std::ops::{Deref, DerefMut};

/// A value on the heap.
pub struct Box<T>(std::boxed::Box<[T; 1]>);

impl<T> Box<T> {
    /// Rattle's clauses: `IfOk result (λ b. b.value ≡ x)`, and an error returns the value:
    /// `IfErr result (λ e. e.value ≡ x)`.
    pub fn new(_: Global, value: T) -> Result<Box<T>, AllocFailed<T>> {
        let mut room = std::vec::Vec::new();
        if room.try_reserve_exact(1).is_err() {
            return Err(AllocFailed { value });
        }
        room.push(value);
        let Ok(boxed) = room.into_boxed_slice().try_into() else {
            unreachable!("the vector has one item");
        };
        Ok(Box(boxed))
    }

    /// Rattle's clause: `result ≡ b.value`.
    pub fn into_inner(boxed: Box<T>) -> T {
        let [value] = *boxed.0;
        value
    }
}

impl<T> Deref for Box<T> {
    type Target = T;

    /// Rattle's clause: `result ≡ S.value`.
    #[inline]
    fn deref(&self) -> &T {
        let [value] = &*self.0;
        value
    }
}

impl<T> DerefMut for Box<T> {
    /// Rattle's clauses: `result ≡ S.value`, and what is written to it is the box's value from then
    /// on.
    #[inline]
    fn deref_mut(&mut self) -> &mut T {
        let [value] = &mut *self.0;
        value
    }
}

impl<T: fmt::Debug> fmt::Debug for Box<T> {
    /// Rattle's clause: it writes what the value's `fmt` writes.
    fn fmt(&self, f: &mut fmt::Formatter<'_>) -> fmt::Result {
        (**self).fmt(f)
    }
}
