//! A watch channel whose steps can be undone.
//!
//! The one contract: `Watch` is a machine whose steps can be undone (`rw_law::Reversible`), and its steps are those of
//! tokio's documentation of `tokio::sync::watch`, by the table of calls in `specs/Channel.antt`.
//! Start reading at that table. Continue with `specs/Record.antt`, the record of all that ever happened, and with
//! `specs/Shown.antt`, what a machine shows of it. Then read `machine.rt`.
//! What stands on it: `rw_values`, `rw_waiting`, `rw_world`.
//~ #![tactic(auto)]
// From crates/rw_watch/src/lib.rt, with its contracts as comments. //+

mod calls;
mod laws;
mod machine;
mod results;

pub use calls::{WCall, WPatch, WReply};
pub use laws::channel_laws;
pub use machine::Watch;
pub use results::RecvError;
pub use crate::source::rw_handles::{Refusal, SendError};
