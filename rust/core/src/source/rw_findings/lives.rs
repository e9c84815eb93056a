//! The lives of a channel's handles: when and by whom each was made, when it was dropped, and who called with it.
// From crates/rw_findings/src/lives.rt, with its contracts as comments. //+

mod finding;
mod life;

pub use finding::lives_of;
pub(crate) use finding::{add_made, count_call, open_lives};
pub use life::Life;
