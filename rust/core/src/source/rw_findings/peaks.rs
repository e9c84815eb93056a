//! The peaks of a run: how much the receivers of a channel lagged, and the like, at most in stretches of places.
// From crates/rw_findings/src/peaks.rt, with its contracts as comments. //+

mod finding;
mod measure;
mod rows;

pub use finding::peaks_of;
pub use measure::{Measure, Stretches};
pub use rows::Peaks;
