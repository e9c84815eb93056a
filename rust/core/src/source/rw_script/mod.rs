//! Scripts: channels, actors and their calls as text; and the run of a script.
//!
//! The main contracts: `Script::read` returns the script that the lines describe, or its first fault. `run_one` returns the run
//! of the calls before the first that would wait, with that line's number.
//! Start reading at `specs/Script.antt`, which defines what the lines of a script mean, and at `specs/Running.antt`, which
//! defines its run. `ScriptReader` reads a script line by line. The words of calls are those of `rw_words`.
//! What stands on it: `rw_console`.
//~ #![tactic(auto)]
// From crates/rw_script/src/lib.rt, with its contracts as comments. //+

mod faults;
mod following;
mod gate;
mod names;
mod reader;
mod running;
mod said;
mod script;
mod start_latch;
mod steps;
mod threads;

pub use faults::{ScriptFault, ScriptFaultKind};
pub use gate::Gate;
pub use reader::{MOST_STEPS, ScriptReader, is_mark};
pub use running::{Played, play, run_one};
pub use script::Script;
pub use steps::ScriptStep;
pub use threads::{RunFault, run_threads};
