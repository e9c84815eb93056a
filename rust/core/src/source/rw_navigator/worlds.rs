//! Conditions on the runs of worlds, the debugger that walks over such a run, and a visitor of a run that others have.
// From crates/rw_navigator/src/worlds.rt, with its contracts as comments. //+

mod condition;
mod debugger;
mod indexes;
mod visitor;

pub use condition::{Cond, closed_at, lag_at, seen_at};
pub use debugger::Debugger;
pub use visitor::Visitor;
