//! What is done to a channel repeatedly.

use proved::rw_broadcast::BCall;
use proved::rw_journal::MOST_ENTRIES;
use proved::rw_watch::WCall;
use proved::rw_world::{ChanCall, RowCall};
use std::fmt;

/// The most entries of a book, and so the most steps of a workload.
pub const MOST_STEPS: u64 = MOST_ENTRIES as u64;

/// The most steps that make a handle at every second step: a channel makes at most 65,536 handles, and has two from the
/// beginning.
const MOST_STEPS_WITH_HANDLES: u64 = 131_000;

/// Work on a broadcast channel.
#[derive(Clone, Copy, Debug, PartialEq, Eq)]
pub enum BroadcastWork {
    /// A send, and then a try-recv of each of this many receivers. The receivers are made first.
    SendAndReceive(u32),
    /// Sends alone.
    Send,
    /// A try-recv where nothing was sent.
    Receive,
    /// A receiver is made, and dropped.
    SubscribeAndDrop,
}

impl fmt::Display for BroadcastWork {
    fn fmt(&self, f: &mut fmt::Formatter) -> fmt::Result {
        match self {
            BroadcastWork::SendAndReceive(receivers) => {
                write!(f, "send and try-recv, receivers: {receivers}")
            }
            BroadcastWork::Send => write!(f, "send"),
            BroadcastWork::Receive => write!(f, "try-recv of nothing"),
            BroadcastWork::SubscribeAndDrop => write!(f, "subscribe and drop"),
        }
    }
}

impl BroadcastWork {
    /// Returns how many steps are made if this many are asked for.
    pub fn steps(self, asked: u64) -> u64 {
        match self {
            BroadcastWork::SubscribeAndDrop => asked.min(MOST_STEPS_WITH_HANDLES),
            _ => asked.min(MOST_STEPS),
        }
    }

    /// Returns the call of step i. Sender 0 and receiver 1 are there from the opening.
    fn call(self, i: u64) -> BCall<u64> {
        match self {
            BroadcastWork::SendAndReceive(receivers) => {
                let receivers = u64::from(receivers);
                if i + 1 < receivers {
                    return BCall::Subscribe(0);
                }
                match (i + 1 - receivers) % (receivers + 1) {
                    0 => BCall::Send(0, i),
                    receiver => BCall::TryRecv(receiver as u32),
                }
            }
            BroadcastWork::Send => BCall::Send(0, i),
            BroadcastWork::Receive => BCall::TryRecv(1),
            BroadcastWork::SubscribeAndDrop => {
                if i % 2 == 0 {
                    BCall::Subscribe(0)
                } else {
                    BCall::DropHandle(2 + (i / 2) as u32)
                }
            }
        }
    }

    /// Returns the calls of this many steps.
    pub fn calls(self, steps: u64) -> Vec<BCall<u64>> {
        (0..steps).map(|i| self.call(i)).collect()
    }
}

/// Work on a watch channel.
#[derive(Clone, Copy, Debug, PartialEq, Eq)]
pub enum WatchWork {
    /// A send, and then an update of each of this many receivers. The receivers are made first.
    SendAndUpdate(u32),
    /// A receiver checks if there is a value that it has not seen.
    HasChanged,
}

impl fmt::Display for WatchWork {
    fn fmt(&self, f: &mut fmt::Formatter) -> fmt::Result {
        match self {
            WatchWork::SendAndUpdate(receivers) => {
                write!(f, "send and update, receivers: {receivers}")
            }
            WatchWork::HasChanged => write!(f, "has-changed"),
        }
    }
}

impl WatchWork {
    /// Returns the call of step i. Sender 0 and receiver 1 are there from the opening.
    fn call(self, i: u64) -> WCall<u64> {
        match self {
            WatchWork::SendAndUpdate(receivers) => {
                let receivers = u64::from(receivers);
                if i + 1 < receivers {
                    return WCall::Subscribe(0);
                }
                match (i + 1 - receivers) % (receivers + 1) {
                    0 => WCall::Send(0, i),
                    receiver => WCall::Update(receiver as u32),
                }
            }
            WatchWork::HasChanged => WCall::HasChanged(1),
        }
    }

    /// Returns the calls of this many steps.
    pub fn calls(self, steps: u64) -> Vec<WCall<u64>> {
        (0..steps).map(|i| self.call(i)).collect()
    }
}

/// Returns the same calls, to channel 0 of a world.
pub fn in_world<C: Copy>(
    calls: &[C],
    of: impl Fn(C) -> ChanCall<u64>,
) -> Vec<RowCall<ChanCall<u64>>> {
    let calls = calls.iter().map(|call| RowCall {
        channel: 0,
        call: of(*call),
    });
    calls.collect()
}
