//! Worlds: channels of both kinds in a row, which are one machine whose steps can be undone.
//!
//! The one contract: a row of machines obeys the laws of `rw_law`, if its machines do (`Row` in `rows.rt`, `Member` in
//! `members.rt`). So does a channel of either kind (`Chan` in `channels.rt`).
//! Start reading at `specs/Row.antt`, which defines what a call to a row does. Continue with `opening.rt`, which opens the
//! worlds of this library, rows of broadcasts and watches. `laws.rt` has what the layers above build on: calls on two channels
//! commute, a journal is legal exactly where each channel's part of it is, and no step changes which channels there are.
//! What stands on it: `rw_blocks`, `rw_journal`, `rw_words`.
//~ #![tactic(auto)]
// From crates/rw_world/src/lib.rt, with its contracts as comments. //+

mod channels;
mod kinds;
mod laws;
mod members;
mod opening;
mod rows;

pub use channels::{Chan, ChanCall, ChanPatch, ChanReply};
pub use kinds::ChannelKind;
pub use laws::{commutes, documented, legal_by_parts, machines, renamed, shape, specified};
pub use members::Member;
pub use opening::{MOST_CHANNELS, OpenFault, Spec, World, open, open_channel, refusal_of};
pub use rows::{Row, RowCall};
pub use crate::source::rw_broadcast::MOST_CAPACITY;
