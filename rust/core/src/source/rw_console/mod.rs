//! Sessions: a script is run, and commands walk over the places of its run.
//!
//! The main contract is that of `session`: it writes the report of the bytes that it reads. The states in the report are those
//! of the records of all that was ever sent.
//! Start reading at `specs/SessionReport.antt`, which defines what is written first, and at `specs/Report.antt`, which defines
//! what commands write at the places of a run. Continue with `sessions.rt`, `reading.rt` (the script), `console.rt` (the
//! commands) and `walk.rt` (the run at a place).
//! What stands on it: `rw_answers`, `rw_program`.
//~ #![tactic(auto)]
// From crates/rw_console/src/lib.rt, with its contracts as comments. //+

mod command;
mod condition_words;
mod console;
mod debugging;
mod entries;
mod reading;
mod session_lines;
mod sessions;
mod text;
mod walk;

pub use debugging::{debug, debug_again};
pub use session_lines::{fault_line, waiting_line};
pub use sessions::{MOST_BYTES, Outcome, session};
pub use walk::{PausedWalk, Walk};
