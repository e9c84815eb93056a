//! Storms: many calls of every kind by many threads on one desk, and mutated texts.
//!
//! Calls and texts are chosen from a seed. The variable YOVANELUM_RUNS says how many seeds are played, of which there are twenty else.

mod channels;
mod generator;
mod making;
mod mutations;
mod notes;
mod passes;
mod receipts;
mod recent_calls;
mod samples;
mod seats;
mod texts;
mod waiting;
mod windows;

use std::env;
use std::ops::Range;

/// The seeds that are played.
fn seeds() -> Range<u64> {
    let runs = env::var("YOVANELUM_RUNS").ok();
    0..runs.and_then(|runs| runs.parse().ok()).unwrap_or(20)
}
