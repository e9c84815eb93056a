//! What every recorded machine promises: each of its steps has an inverse.
//!
//! The one contract is the record `Laws` of `specs/Laws.antt`, which each `Reversible` proves: undoing a step with its patch
//! gives the state before it, and a call that is refused changes nothing.
//! Start reading at the trait in `machine.rt`, and then at `specs/Journal.antt`, which defines the state at a place of a
//! list of recorded steps, and which of these lists are legal.
//! What stands on it: `rw_handles`, `rw_lines`, `rw_ring`.
//~ #![tactic(auto)]
// From crates/rw_law/src/lib.rt, with its contracts as comments. //+

mod journal;
mod limits;
mod machine;
mod memory;
mod value;

pub use journal::Entry;
pub use limits::{MOST_ACTORS, MOST_STAMP, MOST_WEIGHT};
pub use machine::Reversible;
pub use memory::NoMemory;
pub use value::Payload;
