//! The last values of all that were ever put, as many as the capacity, each read by its position among all.
//!
//! The one contract: a ring's values are the last `min(count, capacity)` of all that were put, in order
//! (`specs/Windows.antt`), and each put can be undone.
//! Start reading at `specs/Windows.antt`, the definitions, and then at `ring.rt`.
//! What stands on it: `rw_broadcast`.
//~ #![tactic(auto)]
// From crates/rw_ring/src/lib.rt, with its contracts as comments. //+

mod laws;
mod ring;

pub use laws::window_laws;
pub use ring::{MOST_CAPACITY, Ring};
