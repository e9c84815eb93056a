//! Replays: the calls of a run are made again in the order of a journal.
//!
//! A recorder knows the whole order of the calls on its channels. In a replay each call waits
//! before the [`Gate`], until all calls that the journal has before it are made. `plan.rs` has the
//! journal's calls and which of them a call can be, `state.rs` where the replay stands, `gate.rs`
//! how threads wait and `gate/futures.rs` how futures do, `helper.rs` the thread that wakes
//! futures, `rest.rs` whether all threads wait, `clock.rs` how long the program has run,
//! `divergence.rs` how it leaves the journal, `stop.rs` how it stops for a native debugger, and
//! `outcome.rs` how it went, in words. Recorders open a gate, and channels pass it.

mod clock;
mod divergence;
mod gate;
mod helper;
mod opening;
mod outcome;
mod plan;
mod rest;
mod state;
mod stop;
// WebAssembly has no threads.
#[cfg(all(test, not(target_family = "wasm")))]
mod tests;
mod waiters;

pub(crate) use gate::Gate;
pub(crate) use opening::{gate_of_recorder, hold_polls, open};
pub use outcome::Replayed;
pub(crate) use stop::is_wanted as is_stop_wanted;

use crate::channels::actors::Identity;
use crate::channels::turns::ArrivingCall;
