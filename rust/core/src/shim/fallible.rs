//! Rattle's `Clone`, which may find no memory.

use super::alloc::AllocError;

pub trait Clone: Sized {
    /// Returns a second value, or the error of an allocation that was refused.
    fn clone(&self) -> Result<Self, AllocError>;
}

impl<T: Copy> Clone for T {
    /// Rattle's clause: the copy of a `Copy` value equals it, and doesn't fail.
    #[inline(always)]
    fn clone(&self) -> Result<T, AllocError> {
        Ok(*self)
    }
}
