//! The receipts of an actor's calls.
// From crates/rw_desk/src/kept.rt, with its contracts as comments. //+

use crate::source::rw_world::{ChanCall, ChanReply};

/// The receipt of a recorded call: its channel, its stamp, the call and its reply.
#[derive(Clone, Copy, Debug, PartialEq)]
pub struct Kept<V> {
    pub channel: u32,
    pub stamp: u64,
    pub call: ChanCall<V>,
    pub reply: ChanReply<V>,
}
