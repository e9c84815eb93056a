//! Handles of a channel, numbered in the order of making, with a value each.
//!
//! The one contract: a table is the list of the slots under the numbers 0, 1, 2, .. (`specs/Slots.antt`). A slot has the
//! kind and the value of a live handle, or is spent. No number is used again, unless `Table::renumber` takes the dropped ones
//! out, and each making, drop and write can be undone.
//! Start reading at `kinds.rt`, the types, then at `specs/Slots.antt`, and then at `table.rt`.
//! What stands on it: `rw_broadcast`, `rw_watch`.
//~ #![tactic(auto)]
// From crates/rw_handles/src/lib.rt, with its contracts as comments. //+

mod comparing;
mod kinds;
mod laws;
mod refusals;
mod table;
mod tally;

pub use comparing::is_renaming;
pub use kinds::{Found, HandleFault, Kind, Slot};
pub use laws::{renamings, undoings};
pub use refusals::{Refusal, SendError};
pub use table::{MOST_HANDLES, Table};
