//! The calls of a player, chosen by a generator from a seed.

use crate::channels::{AWAITED_BROADCAST, AWAITED_WATCH, PLAYED, SHARED_SENDER, own_handle};
use proved::rw_broadcast::{BCall, BReply};
use proved::rw_watch::{WCall, WReply};
use proved::rw_world::{ChanCall, ChanReply};
use support::Random;
use support::fixtures::{closure_on, to_broadcast, to_watch};

/// A call to make.
#[derive(Clone, Copy)]
pub struct Choice {
    pub channel: u32,
    pub call: ChanCall<u64>,
    /// Whether it is made by a method that blocks. That is never so for a call that may have to wait.
    pub waits: bool,
}

/// Chooses the calls of one player.
pub struct Generator {
    words: Random,
    // The player's own handle of each channel that others wait for.
    own: u32,
    // For each channel that is played on, the player may name the handles below this number.
    handles: [u32; PLAYED],
}

impl Generator {
    /// Makes the generator of a player.
    pub fn new(seed: u64, player: u32) -> Generator {
        Generator {
            words: Random::new(seed * 1_000 + u64::from(player)),
            own: own_handle(player),
            handles: [3; PLAYED],
        }
    }

    /// Chooses the next call: a send to those that wait, a change of their watch by a closure, or any call on a channel that is
    /// played on.
    pub fn choose(&mut self) -> Choice {
        let word = self.words.any();
        let value = self.words.any();
        let (channel, call) = match word % 16 {
            0 => (AWAITED_BROADCAST, ChanCall::B(BCall::Send(self.own, value))),
            1 => (AWAITED_WATCH, ChanCall::W(WCall::Send(self.own, value))),
            2 => (AWAITED_WATCH, ChanCall::W(closure_on(SHARED_SENDER, value))),
            _ => {
                let channel = ((word >> 4) % PLAYED as u64) as u32;
                (channel, self.any_call(channel as usize, value))
            }
        };
        Choice {
            channel,
            call,
            waits: value % 2 == 0 && !may_wait(&call),
        }
    }

    /// Chooses any call on a channel that is played on.
    fn any_call(&mut self, channel: usize, value: u64) -> ChanCall<u64> {
        let handle = self.handle(channel);
        let kind = self.words.any();
        let call = if channel % 2 == 0 {
            ChanCall::B(to_broadcast(kind, handle, value))
        } else {
            ChanCall::W(to_watch(kind, handle, value))
        };
        spared(channel, call)
    }

    /// Chooses a handle of a channel: one of the first four, or any, perhaps one that isn't made yet.
    fn handle(&mut self, channel: usize) -> u32 {
        let word = self.words.any();
        let below = match self.handles.get(channel) {
            Some(below) if word % 2 == 0 => *below,
            _ => 4,
        };
        ((word >> 1) % u64::from(below.max(1))) as u32
    }

    /// Records a reply, so that later calls may name the handle that it made.
    pub fn hear(&mut self, channel: u32, reply: &ChanReply<u64>) {
        if let ChanReply::B(BReply::New(number)) | ChanReply::W(WReply::New(number)) = reply {
            if let Some(below) = self.handles.get_mut(channel as usize) {
                *below = (*below).max(number.saturating_add(2));
            }
        }
    }
}

/// Spares the first two handles of channels 0 and 1 from a drop, so that these stay open. The others may close.
fn spared(channel: usize, call: ChanCall<u64>) -> ChanCall<u64> {
    match call {
        ChanCall::B(BCall::DropHandle(handle)) if channel < 2 && handle < 2 => {
            ChanCall::B(BCall::DropHandle(handle + 2))
        }
        ChanCall::W(WCall::DropHandle(handle)) if channel < 2 && handle < 2 => {
            ChanCall::W(WCall::DropHandle(handle + 2))
        }
        call => call,
    }
}

/// Whether a call may have to wait.
fn may_wait(call: &ChanCall<u64>) -> bool {
    matches!(
        call,
        ChanCall::B(BCall::Recv(_)) | ChanCall::W(WCall::Changed(_) | WCall::AwaitClosed(_))
    )
}
