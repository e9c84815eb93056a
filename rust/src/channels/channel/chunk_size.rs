//! How many calls a chunk of the last calls has.

/// How many values are copied for each call of a chunk at most. Then the copy takes less than a
/// third of the time of the chunk's calls.
const VALUES_OF_CALL: usize = 2;

/// How many values a handle counts as, since its copy is as large.
const VALUES_OF_HANDLE: usize = 2;

/// How many calls a chunk has at least. A chunk grows to what is kept before it is full, which is
/// no more than one call where chunks have one.
const LEAST: usize = 2;

/// How many calls a chunk has: as many as were asked for, or more, since each chunk copies the
/// values that the channel retains and its handles.
#[derive(Clone, Copy)]
pub(super) struct ChunkSize {
    asked: usize,
    now: usize,
}

impl ChunkSize {
    /// As many as are asked for.
    pub(super) fn new(asked: usize) -> ChunkSize {
        let asked = asked.max(LEAST);
        ChunkSize { asked, now: asked }
    }

    /// How many calls a chunk has.
    pub(super) fn now(self) -> usize {
        self.now
    }

    /// Returns how many calls a chunk is to have, if that isn't what it has, where it copies this
    /// many values and handles.
    pub(super) fn due(self, values: usize, handles: usize) -> Option<usize> {
        let copied = values + VALUES_OF_HANDLE * handles;
        let due = self.asked.max(copied / VALUES_OF_CALL);
        Some(due).filter(|due| *due != self.now)
    }

    /// Says how many calls a chunk has from now on.
    pub(super) fn set(&mut self, now: usize) {
        self.now = now;
    }
}
