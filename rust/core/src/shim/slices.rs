//! The method of slices that allocates.

use super::alloc::{AllocError, Global};
use super::fallible;
use super::vec::Vec;

pub trait SliceExt<T> {
    /// Rattle's `to_vec`, under a name that Rust's slices don't have.
    ///
    /// Rattle's clause: `IfOk result (λ v. AllZip T.is_clone S v.items)`, item by item a clone.
    fn try_to_vec(&self, alloc: Global) -> Result<Vec<T>, AllocError>
    where
        T: fallible::Clone;
}

impl<T> SliceExt<T> for [T] {
    fn try_to_vec(&self, alloc: Global) -> Result<Vec<T>, AllocError>
    where
        T: fallible::Clone,
    {
        let mut copy = Vec::with_capacity(alloc, self.len())?;
        for item in self {
            copy.push_reserved(fallible::Clone::clone(item)?);
        }
        Ok(copy)
    }
}
