//! Calls by any handle of a desk, and journals of channels.

mod calls;
mod hand;
mod journals;

pub use calls::{Called, call_by, drop_hand, wait_until};
pub use hand::{Hand, hands_of};
pub use journals::{Parts, StampedCall, parts_of};
