//! Calls by number, and what is compared of a pass.

use proved::RT;
use proved::rw_desk::{Desk, DeskFault, Pass};
use proved::rw_world::{ChanCall, ChanReply};

/// Where a call is made that names its handle by number: on the channel of this number.
#[derive(Clone, Copy)]
pub enum At {
    /// It may wait.
    Waiting(u32),
    /// It doesn't wait.
    Now(u32),
}

/// How many receipts a pass has, and its clock.
pub fn held(pass: &Pass<u64>) -> (usize, u64) {
    (pass.kept().len(), pass.stamp())
}

/// Makes a call that names its handle by number.
pub fn call_at(
    desk: &Desk<u64>,
    pass: &mut Pass<u64>,
    at: At,
    call: ChanCall<u64>,
) -> Result<ChanReply<u64>, DeskFault> {
    match at {
        At::Waiting(channel) => desk.wait_call(&RT, pass, channel, call),
        At::Now(channel) => desk.call(&RT, pass, channel, call),
    }
}
