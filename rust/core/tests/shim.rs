//! The shim of Rattle's std, clause by clause: by cases, beside plain models in random order, and
//! with each request for memory refused.

#[path = "../../tests/support/random.rs"]
mod random;
#[path = "../../tests/support/refusing.rs"]
mod refusing;

use yovanelum_core::shim;

#[path = "shim/boxes.rs"]
mod boxes;
#[path = "shim/bytes.rs"]
mod bytes;
#[path = "shim/refused.rs"]
mod refused;
#[path = "shim/strings.rs"]
mod strings;
#[path = "shim/vectors.rs"]
mod vectors;

#[global_allocator]
static ALLOCATOR: refusing::Refusing = refusing::Refusing;

/// A value whose clone allocates, and is refused where there is no memory.
#[derive(Debug, PartialEq, Eq)]
struct Owned(shim::Vec<u32>);

impl Owned {
    fn new(n: u32) -> Owned {
        Owned(shim::Vec::from_slice(shim::alloc::Global, &[n]).unwrap())
    }
}

impl shim::fallible::Clone for Owned {
    fn clone(&self) -> Result<Owned, shim::alloc::AllocError> {
        Ok(Owned(shim::Vec::from_slice(shim::alloc::Global, &self.0)?))
    }
}
