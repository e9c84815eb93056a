//! Who has made those calls of a chunk whose actor has a number that several share.

use crate::channels::actors::{self, CallerNumber};
use std::sync::Arc;
use yovanelum_record::numbered::NumberMap;

/// The calls of a chunk that were made by the number that several share, and by whom each was.
#[derive(Default)]
pub(super) struct SharingCallers {
    // How many calls of the chunk were made before each, with the index of its caller's name.
    calls: Vec<(u32, u32)>,
    names: Vec<Arc<str>>,
    // The indexes of the names, by the numbers that callers have for their lives.
    indexes: NumberMap<CallerNumber, u32>,
}

impl SharingCallers {
    /// Notes that the current caller makes a call, before which `before` of the chunk were made.
    #[cold]
    #[inline(never)]
    pub(super) fn add(&mut self, before: usize) {
        let names = &mut self.names;
        let index = self.indexes.get_or_insert_with(actors::own_number(), || {
            names.push(actors::name_of_sharing());
            names.len() as u32 - 1
        });
        self.calls.push((before as u32, *index));
    }

    /// Removes the call that was added last, if `before` of the chunk were made before it.
    pub(super) fn remove_last(&mut self, before: usize) {
        let last = self.calls.last();
        if last.is_some_and(|(index, _)| *index as usize == before) {
            self.calls.pop();
        }
    }

    /// Returns the name of the caller of the call of the chunk before which `before` were made.
    pub(super) fn name(&self, before: u32) -> Option<&Arc<str>> {
        let found = self
            .calls
            .binary_search_by_key(&before, |(index, _)| *index);
        let (_, name) = self.calls[found.ok()?];
        self.names.get(name as usize)
    }

    /// Returns the calls: how many of the chunk were made before each, with its caller's name.
    pub(super) fn calls(&self) -> impl ExactSizeIterator<Item = (u32, &Arc<str>)> {
        let calls = self.calls.iter();
        calls.map(|(before, name)| (*before, &self.names[*name as usize]))
    }

    pub(super) fn clear(&mut self) {
        self.calls.clear();
        self.names.clear();
        self.indexes = NumberMap::new();
    }
}
