//! Moves a machine to any place of its journal, in both directions.
//!
//! Place n of a journal is where its first n entries lead. A `Navigator` holds the entries and one machine, and goes from
//! place to place by undoing or redoing one entry per place: it never starts again from the opening.
//! Every move ensures the record `MovedTo` of `specs/Navigator.antt`: the machine shows the state of its new place, and has
//! made one more call for each place passed.
//! Start reading at `places.rt`, the Navigator and its single steps, and continue with `walks.rt`. The searches, which stop
//! where a condition is met, are in `search_back.rt` and `search_forward.rt`. `hit_index.rt` lists the hits of a condition on
//! entries, for many searches. `worlds.rt` builds on this: a `Debugger` walks over the run of a world and keeps such lists, and
//! its contract states the documented state at each place.
//! What stands on it: `example_ticker`, `rw_console`, `rw_findings`.
//~ #![tactic(auto)]
// From crates/rw_navigator/src/lib.rt, with its contracts as comments. //+

mod conditions;
mod counting;
mod hit_index;
mod moves;
mod places;
mod search_back;
mod search_forward;
mod walks;
mod worlds;

pub use conditions::Probe;
pub use counting::Counted;
pub use hit_index::HitIndex;
pub use moves::{Move, OutOfRange};
pub use places::{MOST_PLACES, Navigator};
pub use worlds::{Cond, Debugger, Visitor, closed_at, lag_at, seen_at};
