//! How a call is made at a desk: by the number of its channel, or by the handles that the channel has from the beginning.

use proved::RT;
use proved::rw_broadcast::BCall;
use proved::rw_desk::{Desk, DeskFault, Ends, Pass, WRx, WTx};
use proved::rw_watch::{WCall, WReply};
use proved::rw_world::{ChanCall, ChanReply};

/// A desk with the handles that its channels have from the beginning.
pub struct Opened {
    pub desk: Desk<u64>,
    pub ends: proved::Vec<Ends>,
}

impl Opened {
    /// Makes a call. If `waits` is true, it blocks while its reply would be `Waits`. Some calls by a channel's first handles are
    /// made by the methods for handles.
    pub fn make(
        &self,
        pass: &mut Pass<u64>,
        channel: u32,
        call: ChanCall<u64>,
        waits: bool,
    ) -> Result<ChanReply<u64>, DeskFault> {
        match (&self.ends[channel as usize], call) {
            (Ends::Broadcast(sender, _), ChanCall::B(BCall::Send(0, value))) => {
                self.desk.b_send(&RT, pass, sender, value).map(ChanReply::B)
            }
            (Ends::Broadcast(_, receiver), ChanCall::B(BCall::Recv(1))) if waits => {
                self.desk.b_recv(&RT, pass, receiver).map(ChanReply::B)
            }
            (Ends::Watch(sender, receiver), call) => {
                self.on_watch(pass, (sender, receiver), channel, call, waits)
            }
            (_, call) => self.by_numbers(pass, channel, call, waits),
        }
    }

    /// Makes a call by the numbers of its channel and its handle.
    fn by_numbers(
        &self,
        pass: &mut Pass<u64>,
        channel: u32,
        call: ChanCall<u64>,
        waits: bool,
    ) -> Result<ChanReply<u64>, DeskFault> {
        if waits {
            self.desk.wait_call(&RT, pass, channel, call)
        } else {
            self.desk.call(&RT, pass, channel, call)
        }
    }

    /// Makes a call on a watch. A change by a closure, a wait for a change and one for the close are made by these handles if the
    /// call names them.
    fn on_watch(
        &self,
        pass: &mut Pass<u64>,
        (sender, receiver): (&WTx, &WRx),
        channel: u32,
        call: ChanCall<u64>,
        waits: bool,
    ) -> Result<ChanReply<u64>, DeskFault> {
        let reply = match call {
            ChanCall::W(WCall::Modify {
                handle: 0, told, ..
            }) => self.modify(pass, sender, told),
            // The condition holds at once or never. If never, the wait lasts until the channel is closed.
            ChanCall::W(WCall::Changed(1)) => self.desk.w_wait_for(&RT, pass, receiver, |_| !waits),
            ChanCall::W(WCall::AwaitClosed(0)) if waits => self.desk.w_closed(&RT, pass, sender),
            call => return self.by_numbers(pass, channel, call, waits),
        };
        reply.map(ChanReply::W)
    }

    /// Adds one to the value of a watch under its lock.
    fn modify(
        &self,
        pass: &mut Pass<u64>,
        sender: &WTx,
        told: bool,
    ) -> Result<WReply<u64>, DeskFault> {
        self.desk.w_send_if_modified(&RT, pass, sender, |value| {
            *value = value.wrapping_add(1);
            told
        })
    }
}
