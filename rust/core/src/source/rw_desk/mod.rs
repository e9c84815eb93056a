//! Desks: channels that threads call, each under its own lock, with all calls recorded.
//!
//! The one contract: a call adds the receipt of its entry to its actor's pass, or returns the first fault and leaves the pass
//! unchanged. Start reading at `specs/Passes.antt`, which says what a recorded call adds to a pass. Then read `pass.rt`, whose
//! `record` makes each step.
//! What stands on it: `rw_script`, `rw_seat`, `test_claims`.
//~ #![tactic(auto)]
// From crates/rw_desk/src/lib.rt, with its contracts as comments. //+

mod broadcast_calls;
mod channel_lock;
mod closing;
mod desk;
mod faults;
mod guarded_book;
mod handles;
mod has_pass;
mod kept;
mod made;
mod modification;
mod pass;
mod same_calls;
mod settling;
mod strangers;
mod straying;
mod watch_calls;
mod watch_closures;

pub use closing::{settle, settle_for};
pub use desk::{Desk, refusal_to_open};
pub use faults::{CloseFault, DeskFault, DeskOpenFault};
pub use handles::{BRx, BTx, Ends, WRx, WTx};
pub use has_pass::HasPass;
pub use kept::Kept;
pub use made::Made;
pub use pass::Pass;
pub use settling::compare;
pub use strangers::stranger;
