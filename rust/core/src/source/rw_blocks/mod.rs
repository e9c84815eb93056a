//! The state of a world as it is shown: a block of lines for each channel, or one line of JSON.
//!
//! Each function appends to a buffer, and its contract says what: the text is a function of what the world shows.
//! Start reading at `specs/Blocks.antt` and `specs/Json.antt`, which define these texts.
//! What stands on it: `rw_console`.
//~ #![tactic(auto)]
// From crates/rw_blocks/src/lib.rt, with its contracts as comments. //+

mod blocks;
mod broadcast_block;
mod handles;
mod json;
mod labels;
mod watch_block;

pub use blocks::push_world;
pub use json::push_json;
