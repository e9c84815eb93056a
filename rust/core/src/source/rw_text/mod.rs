//! The journal text of a run, written and read.
//!
//! The main contracts: `read` accepts exactly the texts of runs, of both versions. It returns the run whose text the bytes are,
//! and for any other bytes the first fault. `write` writes the text of a run in version 2, or a prefix of it if the writer
//! fails. So what was written is read back, as the contract of `round_trip` states. `salvage` returns the run of the whole
//! entry lines of a text that was cut off, and nothing else. `TextFault::line` is the line that reports a fault.
//! Start reading at `specs/Texts.antt`, which defines the text of a run, and at `specs/Versions.antt`, which defines how the
//! versions differ. Continue with `specs/Reading.antt`, which defines line by line what bytes mean.
//! What stands on it: `rw_answers`, `rw_program`, `rw_recording`.
//~ #![tactic(auto)]
// From crates/rw_text/src/lib.rt, with its contracts as comments. //+

mod channels;
mod entry_lines;
mod faults;
mod reader;
mod round_trips;
mod salvaging;
mod texts;
mod versions;
mod writing;

pub use faults::TextFault;
pub use round_trips::round_trip;
pub use salvaging::salvage;
pub use texts::read;
pub use writing::{WriteFault, write};
