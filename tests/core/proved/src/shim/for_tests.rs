//! What `rw_seat` and tests use of Rattle's std that no crate of the library or the program does.

use super::alloc::{AllocError, Global};
use super::{Box, Vec};

pub trait VecExt<T> {
    /// Rattle's clauses: `S'.items ≡ insert S.items at value`, or `S.items` if the result is an error.
    fn insert(&mut self, at: usize, value: T) -> Result<(), AllocError>;

    /// Rattle's clauses: `S'.items ≡ remove S.items at`, and the result is the item that was there.
    fn remove(&mut self, at: usize) -> T;

    /// Rattle's clause: it requires that there are no items.
    fn destroy_empty(self);
}

impl<T> VecExt<T> for Vec<T> {
    #[inline(always)]
    fn insert(&mut self, at: usize, value: T) -> Result<(), AllocError> {
        let end = self.len();
        self.push(value)?;
        if at != end {
            self[at..].rotate_right(1);
        }
        Ok(())
    }

    #[inline(always)]
    fn remove(&mut self, at: usize) -> T {
        if at + 1 != self.len() {
            self[at..].rotate_left(1);
        }
        self.pop().expect("an item at this place")
    }

    fn destroy_empty(self) {
        assert!(self.is_empty());
    }
}

impl<T> AsMut<T> for Box<T> {
    /// Rattle's clauses: `result ≡ S.value`, and what is written to it is the box's value from then on.
    fn as_mut(&mut self) -> &mut T {
        self
    }
}

impl<T> FromIterator<T> for Vec<T> {
    /// Tests alone collect, where memory isn't refused.
    fn from_iter<I: IntoIterator<Item = T>>(items: I) -> Vec<T> {
        let mut made = Vec::new(Global);
        for item in items {
            made.push_reserved(item);
        }
        made
    }
}
