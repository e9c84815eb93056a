//! The totals of a run: what each receiver received, and what it missed.
// From crates/rw_findings/src/totals.rt, with its contracts as comments. //+

mod broadcast;
mod sight;
mod tally;
mod total;
mod totalling;
mod watch;

pub use total::{BroadcastCounts, Counts, Totals, WatchCounts};
pub use totalling::totals_of;
