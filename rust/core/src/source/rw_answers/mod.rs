//! What is answered over a journal text or a script, as bytes: what commands write, states, and lines of what is found in a run.
//!
//! The main contracts: `debug_page` returns what commands write over the run of a journal text, `session_page` a session's report, and
//! `salvage_page` what is left of a journal text. For a journal text with a fault, that is the line of its first fault. An `Opened` is
//! asked of a run that is read once: what commands write over it, its states, and lines of what is found in it.
//!
//! `debug_page` and `session_page` return `TooMuch` only above their limit. All else that is returned as an error is refused memory,
//! and `Opened::of_text` hides no fault of the text by it.
//! Start reading at `specs/Pages.antt`. Who uses it prints these bytes, or has numbers beside the lines: then its tests compare both.
//! What stands on it: the page (`page/engine`).
//~ #![tactic(auto)]
// From crates/rw_answers/src/lib.rt, with its contracts as comments. //+

mod closing_lines;
mod found_lines;
mod held_pages;
mod life_lines;
mod lines;
mod loss_lines;
mod opened;
mod pages;
mod peak_lines;
mod salvages;
mod total_lines;
mod value_lines;

pub use opened::Opened;
pub use pages::{debug_page, session_page};
pub use salvages::salvage_page;
