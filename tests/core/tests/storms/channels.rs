//! The channels of a storm, and the actors on them.
//!
//! Players make calls of every kind on the first four channels, with handles that any of them may name and drop. On the other
//! three each player has its own handle, which it drops at its end. Others wait there, for values and for the channel's close. So
//! each wait ends, since players wait for nobody. By sender 0 of the awaited watch all players change its value with closures, until
//! player 0 ends and drops it.

use proved::rw_broadcast::BCall;
use proved::rw_watch::WCall;
use proved::rw_world::{ChanCall, Spec};

/// How many channels are played on: broadcasts under the even numbers, watches under the odd ones.
pub const PLAYED: usize = 4;

/// The broadcast whose values are awaited. Each player has a sender of it.
pub const AWAITED_BROADCAST: u32 = 4;

/// The watch whose changes are awaited. Each player has a sender of it, and all share another.
pub const AWAITED_WATCH: u32 = 5;

/// The sender of the awaited watch that all players share.
pub const SHARED_SENDER: u32 = 0;

/// The watch whose close is awaited by senders. Each player has a receiver of it.
pub const LEFT_WATCH: u32 = 6;

/// What the channels are opened from.
pub const SPECS: [Spec<u64>; 7] = [
    Spec::Broadcast(4),
    Spec::Watch(0),
    Spec::Broadcast(64),
    Spec::Watch(7),
    Spec::Broadcast(4),
    Spec::Watch(0),
    Spec::Watch(0),
];

/// How many actors play.
pub const PLAYERS: u32 = 8;

/// How many actors wait: two on each of the last three channels.
pub const WAITERS: u32 = 6;

/// Returns the number of the handle that a player has on each of the last three channels.
pub fn own_handle(player: u32) -> u32 {
    player.saturating_add(3)
}

/// The calls that make the second waiter's handle on each of the last three channels, which is handle 2 there.
pub const SECOND_HANDLES: [(u32, ChanCall<u64>); 3] = [
    (AWAITED_BROADCAST, ChanCall::B(BCall::Subscribe(0))),
    (AWAITED_WATCH, ChanCall::W(WCall::Subscribe(0))),
    (LEFT_WATCH, ChanCall::W(WCall::CloneSender(0))),
];

/// The calls that make a player's handles.
pub const OWN_HANDLES: [(u32, ChanCall<u64>); 3] = [
    (AWAITED_BROADCAST, ChanCall::B(BCall::CloneSender(0))),
    (AWAITED_WATCH, ChanCall::W(WCall::CloneSender(0))),
    (LEFT_WATCH, ChanCall::W(WCall::Subscribe(0))),
];

/// The calls that drop those first handles that would keep two of the last three channels open.
pub const FIRST_DROPS: [(u32, ChanCall<u64>); 2] = [
    (AWAITED_BROADCAST, ChanCall::B(BCall::DropHandle(0))),
    (LEFT_WATCH, ChanCall::W(WCall::DropHandle(1))),
];

/// The call that drops the handle that all players share. Player 0 makes it at its end. Later calls with the handle are refused.
pub const SHARED_DROP: [(u32, ChanCall<u64>); 1] =
    [(AWAITED_WATCH, ChanCall::W(WCall::DropHandle(SHARED_SENDER)))];

/// Returns the calls that drop a player's handles.
pub fn own_drops(player: u32) -> [(u32, ChanCall<u64>); 3] {
    let own = own_handle(player);
    [
        (AWAITED_BROADCAST, ChanCall::B(BCall::DropHandle(own))),
        (AWAITED_WATCH, ChanCall::W(WCall::DropHandle(own))),
        (LEFT_WATCH, ChanCall::W(WCall::DropHandle(own))),
    ]
}

/// Returns the channel that a waiter waits for, and the call that it makes until the channel is closed. The first of its two
/// waiters uses a handle that the channel has from the beginning, and the second uses handle 2.
pub fn awaited_by(waiter: u32) -> (u32, ChanCall<u64>) {
    match waiter {
        0 => (AWAITED_BROADCAST, ChanCall::B(BCall::Recv(1))),
        1 => (AWAITED_BROADCAST, ChanCall::B(BCall::Recv(2))),
        2 => (AWAITED_WATCH, ChanCall::W(WCall::Changed(1))),
        3 => (AWAITED_WATCH, ChanCall::W(WCall::Changed(2))),
        4 => (LEFT_WATCH, ChanCall::W(WCall::AwaitClosed(0))),
        _ => (LEFT_WATCH, ChanCall::W(WCall::AwaitClosed(2))),
    }
}
