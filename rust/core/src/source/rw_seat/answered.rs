//! The result of a seat's call.
// From crates/rw_seat/src/answered.rt, with its contracts as comments. //+

use crate::source::rw_world::ChanReply;

/// The entry of the call, which ends the channel's journal: its reply, its stamp, and the length of the journal with it.
#[derive(Clone, Copy, Debug, PartialEq)]
pub struct Answered<V> {
    pub reply: ChanReply<V>,
    pub stamp: u64,
    pub front: u64,
}
