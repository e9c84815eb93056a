//! Values that only contracts read.

use std::marker::PhantomData;

/// A value as contracts see it: it has no bytes, and owns nothing.
pub struct Snapshot<T>(PhantomData<fn() -> T>);

impl<T> Snapshot<T> {
    /// Rattle's clause: `result.value ≡ x`, which nothing at run time can read.
    #[inline(always)]
    pub fn of(_: &T) -> Snapshot<T> {
        Snapshot(PhantomData)
    }
}
