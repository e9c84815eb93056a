//! The error of a failed allocation.
// From crates/rw_law/src/memory.rt, with its contracts as comments. //+

use crate::shim::alloc::{AllocError, AllocFailed};
//~ use thiserror::Error;

/// An allocation failed. What was to grow is as it was.
#[derive(Clone, Copy, Debug, PartialEq, Eq/*~, Error~*/)]
//~ #[error("no memory")]
pub struct NoMemory;

impl From<AllocError> for NoMemory {
    fn from(_error: AllocError) -> NoMemory {
        NoMemory
    }
}

impl<T/*~: Drop~*/> From<AllocFailed<T>> for NoMemory {
    fn from(_error: AllocFailed<T>) -> NoMemory {
        NoMemory
    }
}
impl core::fmt::Display for NoMemory { //+
    fn fmt(&self, f: &mut core::fmt::Formatter<'_>) -> core::fmt::Result { //+
        match self { //+
            NoMemory => write!(f, "no memory"), //+
        } //+
    } //+
} //+
impl core::error::Error for NoMemory {} //+
