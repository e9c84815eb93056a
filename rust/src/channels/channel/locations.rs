//! Where the calls of a channel were made.

use std::panic::Location;
use std::{iter, mem};
use yovanelum_core::large_pages::ask_for_large_pages;

/// Where a call was made in the source. A drop has no caller, so it has none.
pub(crate) type CallSite = Option<&'static Location<'static>>;

/// Returns where the function that calls this was called, if it is marked with `#[track_caller]`.
#[track_caller]
#[inline(always)]
pub(crate) fn call_site() -> CallSite {
    Some(Location::caller())
}

/// How many call sites a block has. It has 32 KiB.
const BLOCK: usize = 4096;

/// How many call sites are in the list itself. A channel that is created and dropped has as many
/// calls, and as many handles.
const FIRST: usize = 2;

/// How many others there is room for at first. Most channels have few.
const NEXT: usize = 4;

/// How many blocks there are of that size. The one after them has room for the rest of a recording.
const SMALL_BLOCKS: usize = 16;

/// How many call sites that block has room for: as many as a recording has calls. What isn't
/// written needs only addresses.
const LARGE_BLOCK: usize = 1_048_576;

/// A list of call sites. It grows by blocks, so what is in a whole block is never copied.
#[derive(Default)]
pub(crate) struct CallSites {
    first: [CallSite; FIRST],
    // How many there are of the first ones.
    first_len: usize,
    // Most channels have none.
    whole: Option<Box<WholeBlocks>>,
    last: Vec<CallSite>,
}

/// The blocks before the last one.
#[derive(Default)]
struct WholeBlocks(Vec<Vec<CallSite>>);

impl CallSites {
    #[inline(always)]
    pub(crate) fn push(&mut self, site: CallSite) {
        if self.last.len() == self.last.capacity() {
            return self.push_where_full(site);
        }
        self.last.push(site);
    }

    #[cold]
    #[inline(never)]
    fn push_where_full(&mut self, site: CallSite) {
        if let Some(first) = self.first.get_mut(self.first_len) {
            *first = site;
            self.first_len += 1;
            return;
        }
        self.grow();
        self.last.push(site);
    }

    fn grow(&mut self) {
        match self.last.capacity() {
            0 => self.last.reserve_exact(NEXT),
            BLOCK.. => {
                let next = self.next_block();
                let whole = self.whole.get_or_insert_default();
                whole.0.push(mem::replace(&mut self.last, next));
            }
            some => self.last.reserve_exact(some),
        }
    }

    /// The blocks before the last one.
    fn whole(&self) -> &[Vec<CallSite>] {
        self.whole.as_ref().map_or(&[], |whole| &whole.0)
    }

    /// Allocates the block after the last one. Where there are many calls it asks for large pages,
    /// since else each 512th call is a page fault.
    fn next_block(&self) -> Vec<CallSite> {
        if self.whole().len() + 1 < SMALL_BLOCKS {
            return Vec::with_capacity(BLOCK);
        }
        let mut block = Vec::with_capacity(LARGE_BLOCK);
        ask_for_large_pages(block.spare_capacity_mut());
        block
    }

    /// Removes the call site that was added last, and returns it.
    pub(crate) fn pop(&mut self) -> CallSite {
        if let Some(site) = self.last.pop() {
            return site;
        }
        self.first_len = self.first_len.checked_sub(1)?;
        self.first[self.first_len]
    }

    /// The parts of the list, in their order.
    fn parts(&self) -> impl Iterator<Item = &[CallSite]> {
        let first = iter::once(&self.first[..self.first_len]);
        let whole = self.whole().iter().chain(iter::once(&self.last));
        first.chain(whole.map(Vec::as_slice))
    }

    pub(crate) fn iter(&self) -> impl Iterator<Item = &CallSite> {
        self.parts().flatten()
    }

    /// Returns the call site before which `before` others were added.
    pub(crate) fn get(&self, mut before: usize) -> CallSite {
        for part in self.parts() {
            if let Some(site) = part.get(before) {
                return *site;
            }
            before -= part.len();
        }
        None
    }

    pub(crate) fn len(&self) -> usize {
        self.parts().map(<[_]>::len).sum()
    }
}

/// Where the recorded calls of a channel were made, and its senders and receivers.
#[derive(Default)]
pub(crate) struct Locations {
    /// One for each entry of the journal, in its order.
    pub(crate) of_calls: CallSites,
    /// One for each sender, weak sender and receiver that the journal names, by its number.
    pub(crate) of_handles: CallSites,
}

#[cfg(test)]
mod tests {
    use super::*;

    #[test]
    fn a_list_of_several_blocks_is_in_order() {
        let (first, second) = (call_site(), call_site());
        let site_of = |number: usize| [None, first, second][number % 3];
        let mut sites = CallSites::default();
        for number in 0..3 * BLOCK + 7 {
            assert_eq!(sites.len(), number);
            // A call site that is removed leaves nothing, also where it was the first of its block.
            sites.push(site_of(number + 1));
            sites.pop();
            sites.push(site_of(number));
        }
        let wanted = (0..3 * BLOCK + 7).map(site_of);
        assert!(sites.iter().copied().eq(wanted));
        assert_eq!((sites.whole().len(), sites.last.capacity()), (3, BLOCK));
    }

    #[test]
    fn a_long_list_is_in_order() {
        const COUNT: usize = (SMALL_BLOCKS + 1) * BLOCK;
        let site = call_site();
        let site_of = |number: usize| site.filter(|_| number % 7 == 0);
        let mut sites = CallSites::default();
        (0..COUNT).for_each(|number| sites.push(site_of(number)));
        assert_eq!(sites.len(), COUNT);
        assert!(sites.iter().copied().eq((0..COUNT).map(site_of)));
        assert_eq!(
            (sites.whole().len(), sites.last.len()),
            (SMALL_BLOCKS, BLOCK - FIRST)
        );
    }
}
