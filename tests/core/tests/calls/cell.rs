//! A machine for the tests of books.

use proved::Global;
use proved::rw_journal::Copied;
use proved::rw_law::{NoMemory, Reversible};

#[derive(Clone, Copy)]
pub enum Call {
    Set(u64),
    /// Would always wait.
    Wait,
    /// Names no channel.
    Stray,
}

#[derive(Clone, Copy, Debug, PartialEq, Eq)]
pub enum Reply {
    Was(u64),
    Waits,
    NoChannel,
}

/// A value that can be set a limited number of times.
pub struct Cell {
    value: u64,
    sets: u64,
    limit: u64,
    most: u64,
}

impl Cell {
    pub fn new(most: u64) -> Cell {
        Cell {
            value: 0,
            sets: 0,
            limit: 0,
            most,
        }
    }

    pub fn value(&self) -> u64 {
        self.value
    }
}

impl Reversible for Cell {
    type Call = Call;

    type Reply = Reply;

    type Patch = u64;

    fn weight(&self) -> u64 {
        self.sets
    }

    fn limit(&self) -> u64 {
        self.limit
    }

    fn ready(&mut self, n: u64) -> Result<(), NoMemory> {
        let wanted = self.sets + n;
        if wanted <= self.limit {
            Ok(())
        } else if wanted <= self.most {
            self.limit = wanted;
            Ok(())
        } else {
            Err(NoMemory)
        }
    }

    fn apply(&mut self, call: &Call) -> (Reply, u64) {
        let before = self.value;
        match call {
            Call::Set(value) => {
                self.value = *value;
                self.sets += 1;
                (Reply::Was(before), before)
            }
            Call::Wait => (Reply::Waits, before),
            Call::Stray => (Reply::NoChannel, before),
        }
    }

    fn undo(&mut self, call: &Call, before: &u64) {
        if let Call::Set(_) = call {
            self.value = *before;
            self.sets -= 1;
        }
    }

    fn waits(reply: &Reply) -> bool {
        matches!(reply, Reply::Waits)
    }

    fn strays(reply: &Reply) -> bool {
        matches!(reply, Reply::NoChannel)
    }
}

impl Copied for Cell {
    fn copied(&self, _alloc: Global) -> Result<Cell, NoMemory> {
        Ok(Cell { ..*self })
    }
}
