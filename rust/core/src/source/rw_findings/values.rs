//! The values of a channel: since when each is there, and where it was overwritten.
// From crates/rw_findings/src/values.rt, with its contracts as comments. //+

mod counting;
mod finding;
mod value;

pub use counting::{values_between, values_by};
pub(crate) use finding::note_state;
pub use finding::values_of;
pub use value::ChannelValue;
