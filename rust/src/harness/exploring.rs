//! Failing orders, found: a test is run many times, each time with other choices of who goes on.
//!
//! The variable `YOVANELUM_EXPLORE` begins it. `session.rs` is the test's own process, which runs
//! its program again and again, by the orders that `search.rs` hands out, each as a process
//! (`process.rs`). The explorer of the schedule is what chooses there. `answer.rs` says whether a
//! run met the condition that is looked for, `shorten.rs` looks for fewer switches, `race.rs` says
//! what they are, `exchange.rs` for the two steps that make the difference to a run of `passed.rs`,
//! `tries.rs` runs an order again, `counts.rs` has what was tried, `steps.rs` whose steps that were
//! and `covered.rs` how much of all that is, `failing_order.rs` has what failed, `story.rs`
//! tells it, `reporting.rs` reports it, and `budget.rs` says how long all may take.

mod answer;
mod budget;
mod counts;
mod covered;
mod exchange;
mod failing_order;
mod passed;
mod process;
mod progress;
mod race;
mod race_calls;
mod reporting;
mod search;
mod session;
mod settings;
mod shorten;
mod steps;
mod story;
mod tries;

pub(super) use answer::answer;
pub(super) use settings::RUNS;

use crate::schedule::explore;

/// Begins with the test of this name: explores it if the variable says so, or follows the order of
/// a run that is explored.
///
/// # Panics
///
/// Panics if a failing order is found, or if a variable isn't what it is to be.
pub(super) fn begin(name: &str) {
    // A text that is no condition is refused before any run.
    explore::condition();
    if !explore::begin() {
        session::explore(name);
    }
}
