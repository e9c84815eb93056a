//! The highest layer: the recorder of a test, what a failing test and a dump write, and the program
//! that it is all part of.

pub(crate) mod automatic;
mod ending;
pub(crate) mod exploring;
mod files;
pub(crate) mod flight;
pub(crate) mod for_test;
#[doc(hidden)]
pub mod given;
mod nothing;
mod panic_hook;
pub(crate) mod program;
mod reader;
mod recorded;
mod replay_line;
mod replaying;
mod saved;
mod seen_panic;
mod source_names;
mod stacks;
mod stand_in;
mod test_run;
mod watchdog;
mod whereabouts;
mod window_names;
mod windows;
