//! The losses of a run: which receivers missed values of a broadcast, from which send on, and how that ended.
// From crates/rw_findings/src/losses.rt, with its contracts as comments. //+

mod finding;
mod loss;
mod track;

pub use finding::losses_of;
pub use loss::{Loss, LossEnd};
pub(crate) use track::{retained, subject};
