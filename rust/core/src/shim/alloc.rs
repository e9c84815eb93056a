//! The allocator's handle, and the errors of allocations that were refused.

use std::io;

/// The global allocator. It has no bytes.
#[derive(Clone, Copy, Debug)]
pub struct Global;

/// An allocation was refused.
#[derive(Clone, Copy, Debug, PartialEq, Eq)]
pub struct AllocError;

/// An allocation was refused, and the value that was to be stored comes back.
#[derive(Debug)]
pub struct AllocFailed<T> {
    pub value: T,
}

impl<T> From<AllocFailed<T>> for AllocError {
    /// The value is dropped, so that `?` can follow a `push`.
    #[inline]
    fn from(_: AllocFailed<T>) -> AllocError {
        AllocError
    }
}

impl From<AllocError> for io::Error {
    fn from(_: AllocError) -> io::Error {
        io::ErrorKind::OutOfMemory.into()
    }
}
