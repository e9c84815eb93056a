//! `Vec`, whose every allocation can fail, and `vec!`.

use super::alloc::{AllocError, AllocFailed, Global};
use super::fallible;
use super::large_pages::{ask_for_large_pages, give_back_pages, gives_back};
use std::fmt;
use std::io;
use std::mem;
use std::ops::{Deref, DerefMut};

/// A block of this size is asked for in large pages. A vector that grows to it is moved to a whole
/// block.
const LARGE: usize = 2 << 20;

/// The size of a whole block: that of nearly all calls of a recording, 1,048,576 of 32 bytes, so
/// the vector isn't moved when it grows from then on. It is less than 32 MiB: once a block of such
/// a size was freed, glibc keeps the memory of later ones that are freed, up to 64 MiB in all. So
/// the third recorder of a process, and each after it, writes to memory that is there.
const WHOLE: usize = (32 << 20) - (8 << 10);

/// That of a text, which mostly has all of them.
const WHOLE_TEXT: usize = 64 << 20;

/// Whether there are whole blocks. On Linux what isn't written needs only addresses. Elsewhere it
/// may count as memory that is used.
const HAS_WHOLE_BLOCKS: bool = cfg!(target_os = "linux");

/// Where memory is given back, it is that of blocks of this size: of what isn't written in one, and
/// of one that is dropped. A vector that grows to it is moved. So a process whose vectors come and
/// go takes no more memory than they fill, however its allocator uses blocks again.
const MANY_PAGES: usize = 64 << 10;

/// Items on the heap.
#[derive(PartialEq, Eq)]
pub struct Vec<T>(pub(super) std::vec::Vec<T>);

impl<T> Vec<T> {
    /// Rattle's clauses: `result.items ≡ []`, `vec_capacity result ≡ 0`. It allocates nothing.
    #[inline(always)]
    pub fn new(_: Global) -> Vec<T> {
        Vec(std::vec::Vec::new())
    }

    /// Rattle's clauses: `IfOk result (λ v. v.items ≡ [])`,
    /// `IfOk result (λ v. vec_capacity v ≡ capacity)`.
    pub fn with_capacity(_: Global, capacity: usize) -> Result<Vec<T>, AllocError> {
        let mut made = std::vec::Vec::new();
        made.try_reserve_exact(capacity).map_err(|_| AllocError)?;
        if capacity.saturating_mul(size_of::<T>()) >= LARGE {
            ask_for_large_pages(made.spare_capacity_mut());
        }
        Ok(Vec(made))
    }

    /// Rattle's clauses: `S'.items ≡ S.items`; success leaves room:
    /// `OnOk result (vec_len S' + additional ≤ vec_capacity S')`; it fails only where that room was
    /// missing, and then the capacity stays.
    #[inline(always)]
    pub fn reserve(&mut self, additional: usize) -> Result<(), AllocError> {
        if additional <= self.0.capacity() - self.0.len() {
            return Ok(());
        }
        self.grow(additional)
    }

    /// The part of `reserve` that asks for memory, apart so that the test is inlined. It grows as
    /// Rust's `Vec` does, but from `LARGE` on to a whole block in large pages.
    #[cold]
    #[inline(never)]
    fn grow(&mut self, additional: usize) -> Result<(), AllocError> {
        let len = self.0.len();
        let size = size_of::<T>().max(1);
        let wanted = len
            .saturating_add(additional)
            .max(self.0.capacity().saturating_mul(2));
        if HAS_WHOLE_BLOCKS && wanted.saturating_mul(size) >= LARGE {
            let whole = wanted.max(if size == 1 { WHOLE_TEXT } else { WHOLE / size });
            if self.0.try_reserve_exact(whole - len).is_ok() {
                ask_for_large_pages(self.0.spare_capacity_mut());
                return Ok(());
            }
        }
        if wanted.saturating_mul(size) >= MANY_PAGES && gives_back() {
            return self.move_to(wanted);
        }
        self.0.try_reserve(additional).map_err(|_| AllocError)
    }

    /// Moves the items to a block with room for `capacity` items. At an error nothing has changed.
    fn move_to(&mut self, capacity: usize) -> Result<(), AllocError> {
        let mut moved = Vec(std::vec::Vec::new());
        let reserved = moved.0.try_reserve_exact(capacity);
        reserved.map_err(|_| AllocError)?;
        moved.give_back_spare();
        moved.0.append(&mut self.0);
        *self = moved;
        Ok(())
    }

    /// Gives back the memory behind the items, if it is much.
    #[inline]
    fn give_back_spare(&mut self) {
        let spare = self.0.spare_capacity_mut();
        if size_of_val(spare) >= MANY_PAGES {
            give_back_pages(spare);
        }
    }

    /// Rattle's clauses: `S'.items ≡ S.items ++ value ∷ []`, or `S.items` if the result is an
    /// error, which returns the value: `IfErr result (λ e. e.value ≡ value)`. Only a full vector
    /// can fail.
    #[inline(always)]
    pub fn push(&mut self, value: T) -> Result<(), AllocFailed<T>> {
        if self.reserve(1).is_err() {
            return Err(AllocFailed { value });
        }
        self.0.push(value);
        Ok(())
    }

    /// Appends where there is room, as Rattle's clause requires: `vec_len S < vec_capacity S`. If a
    /// caller broke it, Rust's `push` would ask for room, and end the process if that is refused.
    ///
    /// Rattle's clauses: `S'.items ≡ S.items ++ value ∷ []`, `vec_capacity S' ≡ vec_capacity S`.
    #[inline(always)]
    pub fn push_reserved(&mut self, value: T) {
        self.0.push(value);
    }

    /// Rattle's clauses: `S.items ≡ S'.items ++ option_to_list result`,
    /// `IsSome result ↔ (0 < vec_len S)`.
    #[inline(always)]
    pub fn pop(&mut self) -> Option<T> {
        self.0.pop()
    }

    /// Rattle's clause: `result ≡ vec_capacity S`.
    #[inline(always)]
    pub fn capacity(&self) -> usize {
        self.0.capacity()
    }

    /// Rattle's clause: `result ≡ S.items`.
    #[inline(always)]
    pub fn as_slice(&self) -> &[T] {
        &self.0
    }

    /// Rattle's clauses: `result ≡ S.items`, and what is written to it is in `S'`.
    #[inline(always)]
    pub fn as_mut_slice(&mut self) -> &mut [T] {
        &mut self.0
    }

    /// Rattle's clause: `result ≡ slice_get S.items i`. Where nothing is inlined, a slice's own
    /// function calls another.
    #[inline(always)]
    pub fn get(&self, i: usize) -> Option<&T> {
        let items = self.0.as_slice();
        if i < items.len() {
            Some(&items[i])
        } else {
            None
        }
    }

    /// Rattle's clauses: `S'.items ≡ []`, `vec_capacity S' ≡ vec_capacity S`.
    #[inline(always)]
    pub fn clear(&mut self) {
        self.0.clear()
    }

    /// Rattle's clauses: `S'.items ≡ take n S.items`, `vec_capacity S' ≡ vec_capacity S`.
    #[inline]
    pub fn truncate(&mut self, n: usize) {
        self.0.truncate(n)
    }

    /// Rattle's clauses: `IsFiltered f S.items S'.items`, `vec_capacity S' ≡ vec_capacity S`.
    #[inline]
    pub fn retain(&mut self, passes: impl FnMut(&T) -> bool) {
        self.0.retain(passes)
    }

    /// What `vec![in alloc; a, b]` calls.
    ///
    /// Rattle's clauses: `IfOk result (λ v. v.items ≡ items)`, and an error returns the items.
    pub fn from_array<const N: usize>(
        alloc: Global,
        items: [T; N],
    ) -> Result<Vec<T>, AllocFailed<[T; N]>> {
        match Vec::with_capacity(alloc, N) {
            Ok(mut made) => {
                made.0.extend(items);
                Ok(made)
            }
            Err(_) => Err(AllocFailed { value: items }),
        }
    }
}

impl<T> Drop for Vec<T> {
    /// The items are dropped, as in Rattle, and the block is freed. Where memory is given back,
    /// that of a large block is first.
    #[inline]
    fn drop(&mut self) {
        if self.0.capacity().saturating_mul(size_of::<T>()) >= MANY_PAGES {
            self.0.clear();
            self.give_back_spare();
        }
    }
}

impl<T: Copy> Vec<T> {
    /// Rattle's clause: `IfOk result (λ v. v.items ≡ items)`.
    pub fn from_slice(alloc: Global, items: &[T]) -> Result<Vec<T>, AllocError> {
        let mut made = Vec::with_capacity(alloc, items.len())?;
        made.0.extend_from_slice(items);
        Ok(made)
    }

    /// Rattle's clause: `S'.items ≡ S.items ++ other`, or `S.items` if the result is an error.
    #[inline]
    pub fn extend_from_slice(&mut self, other: &[T]) -> Result<(), AllocError> {
        let is_first = self.0.is_empty();
        self.reserve(other.len())?;
        self.0.extend_from_slice(other);
        if is_first {
            self.give_back_spare();
        }
        Ok(())
    }
}

impl<T: fallible::Clone> Vec<T> {
    /// What `vec![in alloc; item; n]` calls. The last item is `item` itself.
    ///
    /// Rattle's clauses: `IfOk result (λ v. AllClonesOf T.is_clone item v.items)`,
    /// `IfOk result (λ v. vec_len v ≡ n)`.
    pub fn from_elem(alloc: Global, item: T, n: usize) -> Result<Vec<T>, AllocError> {
        let mut made = Vec::with_capacity(alloc, n)?;
        for _ in 1..n {
            made.push_reserved(item.clone()?);
        }
        if n > 0 {
            made.push_reserved(item);
        }
        Ok(made)
    }
}

impl<T: fmt::Debug> fmt::Debug for Vec<T> {
    /// Rattle's clause: it writes `debug_list S.items`, as Rust does.
    fn fmt(&self, f: &mut fmt::Formatter<'_>) -> fmt::Result {
        self.0.fmt(f)
    }
}

impl<T> Deref for Vec<T> {
    type Target = [T];

    /// Rattle's clause: `result ≡ S.items`.
    #[inline(always)]
    fn deref(&self) -> &[T] {
        &self.0
    }
}

impl<T> DerefMut for Vec<T> {
    /// Rattle's clauses: `result ≡ S.items`, and what is written to it is in `S'`.
    #[inline(always)]
    fn deref_mut(&mut self) -> &mut [T] {
        &mut self.0
    }
}

impl<T> IntoIterator for Vec<T> {
    type Item = T;
    type IntoIter = std::vec::IntoIter<T>;

    /// Rattle's clause: the iterator yields `S.items`, in this order.
    #[inline]
    fn into_iter(mut self) -> std::vec::IntoIter<T> {
        mem::take(&mut self.0).into_iter()
    }
}

impl<'a, T> IntoIterator for &'a Vec<T> {
    type Item = &'a T;
    type IntoIter = std::slice::Iter<'a, T>;

    /// Rattle's clause: the iterator yields references to `S.items`, in this order.
    #[inline]
    fn into_iter(self) -> std::slice::Iter<'a, T> {
        self.0.iter()
    }
}

impl io::Write for Vec<u8> {
    /// Rattle's clauses: `Ok(n)` appends the first `n` bytes, and an error appends none. Here it is
    /// all or none.
    #[inline]
    fn write(&mut self, bytes: &[u8]) -> io::Result<usize> {
        match self.extend_from_slice(bytes) {
            Ok(()) => Ok(bytes.len()),
            Err(AllocError) => Err(io::ErrorKind::OutOfMemory.into()),
        }
    }

    /// Rattle's clause: the bytes stay.
    #[inline]
    fn flush(&mut self) -> io::Result<()> {
        Ok(())
    }
}

/// Rattle's `vec![in alloc; a, b]` and `vec![in alloc; item; n]`, which return a `Result`.
#[doc(hidden)]
#[macro_export]
macro_rules! vec {
    (in $alloc:expr; $item:expr; $n:expr) => {
        $crate::shim::Vec::from_elem($alloc, $item, $n)
    };
    (in $alloc:expr; $($item:expr),+ $(,)?) => {
        $crate::shim::Vec::from_array($alloc, [$($item),+])
    };
}
pub use vec;
