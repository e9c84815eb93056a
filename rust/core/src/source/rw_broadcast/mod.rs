//! A broadcast channel whose steps can be undone.
//!
//! The one contract: `Broadcast` is a machine whose steps can be undone (`rw_law::Reversible`), and its steps are those of
//! tokio's documentation of `tokio::sync::broadcast`, by the table of calls in `specs/Channel.antt`.
//! Start reading at that table. Continue with `specs/Record.antt`, the record of all that was ever sent, and with
//! `specs/Shown.antt`, what a machine still shows of it. Then read `machine.rt`.
//! What stands on it: `rw_values`, `rw_waiting`, `rw_world`.
//~ #![tactic(auto)]
// From crates/rw_broadcast/src/lib.rt, with its contracts as comments. //+

mod calls;
mod laws;
mod least;
mod machine;
mod results;

pub use calls::{BCall, BPatch, BReply};
pub use laws::{channel_laws, leads};
pub use machine::{Broadcast, OpenFault};
pub use results::TryRecvError;
pub use crate::source::rw_handles::{Refusal, SendError};
pub use crate::source::rw_ring::MOST_CAPACITY;
