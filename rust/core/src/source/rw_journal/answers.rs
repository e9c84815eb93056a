//! Results of a call on a book.
// From crates/rw_journal/src/answers.rt, with its contracts as comments. //+

use crate::source::rw_law::{NoMemory, Reversible};
//~ use thiserror::Error;

/// What the caller of a recorded call gets from its entry.
pub struct Receipt<M: Reversible> {
    pub stamp: u64,
    pub reply: M::Reply,
}

//~ impl<M: Reversible> Drop for Receipt<M> {
//~     fn drop(self) {
//~         let Receipt { stamp: _, reply: _ } = self;
//~     }
//~ }

/// Why a book didn't record a call: the first that holds, in this order.
#[derive(Clone, Copy, Debug, PartialEq, Eq/*~, Error~*/)]
pub enum TakeFault {
    /// The book has 1,048,576 entries, or the stamp would pass 2^62.
//~     #[error("journal full")]
    JournalFull,
    /// An allocation failed.
//~     #[error("no memory")]
    NoMemory,
    /// The call would wait.
//~     #[error("would wait")]
    Waits,
    /// The machine has no channel for the call.
//~     #[error("no such channel")]
    NoChannel,
}

impl From<NoMemory> for TakeFault {
//~     ghost use Rattle.std.specs.Prelude.{◌≡◌};
//~     ghost use Rattle.rw_journal.specs.declared.answers.TakeFault.TheVariants as take;

//~     ghost from_gives = { λ _ fault. fault ≡ take.NoMemory };

    fn from(_error: NoMemory) -> TakeFault {
        TakeFault::NoMemory
    }
}
impl core::fmt::Display for TakeFault { //+
    fn fmt(&self, f: &mut core::fmt::Formatter<'_>) -> core::fmt::Result { //+
        match self { //+
            TakeFault::JournalFull => write!(f, "journal full"), //+
            TakeFault::NoMemory => write!(f, "no memory"), //+
            TakeFault::Waits => write!(f, "would wait"), //+
            TakeFault::NoChannel => write!(f, "no such channel"), //+
        } //+
    } //+
} //+
impl core::error::Error for TakeFault {} //+
