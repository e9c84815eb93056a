//! The closings of a run: where the last sender of each channel was dropped, and what its receivers did then.
// From crates/rw_findings/src/closings.rt, with its contracts as comments. //+

mod closed_channel;
mod closing;
mod finding;

pub use closing::{Closing, Closings, LateReader};
pub use finding::closings_of;
