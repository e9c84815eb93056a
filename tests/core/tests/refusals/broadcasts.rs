//! Calls on a broadcast of a desk by its handles. Each is made by another actor, whose pass has no room for a receipt yet.

use crate::callers::{ask_all, ask_drop, say_reply};
use crate::met::say;
use proved::rw_broadcast::BCall;
use proved::rw_desk::{Desk, Pass};
use proved::rw_world::ChanCall;
use support::desks::Hand;

/// What is called by sender 0.
static BY_SENDER: [ChanCall<u64>; 7] = [
    ChanCall::B(BCall::Send(0, 4)),
    ChanCall::B(BCall::SenderLen(0)),
    ChanCall::B(BCall::Subscribe(0)),
    ChanCall::B(BCall::CloneSender(0)),
    ChanCall::B(BCall::ReceiverCount(0)),
    ChanCall::B(BCall::Send(0, 5)),
    ChanCall::B(BCall::SenderLen(0)),
];

/// What is called then by receiver 1.
static BY_RECEIVER: [ChanCall<u64>; 4] = [
    ChanCall::B(BCall::ReceiverLen(1)),
    ChanCall::B(BCall::TryRecv(1)),
    ChanCall::B(BCall::Resubscribe(1)),
    ChanCall::B(BCall::Recv(1)),
];

/// How many actors make one of these calls each.
const CALLERS: usize = 11;

/// How many actors there are: those, and two who drop the handles.
pub const ACTORS: u32 = 13;

/// Drops the two handles, each by a pass of its own.
fn drop_both(desk: &Desk<u64>, passes: &mut [Pass<u64>], sender: Hand, receiver: Hand) {
    let [first, second] = passes else {
        return say!("  not two passes are left");
    };
    let received = ask_drop(desk, first, receiver);
    let sent = ask_drop(desk, second, sender);
    say_reply(&received);
    say_reply(&sent);
}

/// Makes all calls by the two handles.
fn call_each(desk: &Desk<u64>, passes: &mut [Pass<u64>], sender: &Hand, receiver: &Hand) {
    let (by_sender, by_receiver) = passes.split_at_mut(BY_SENDER.len().min(passes.len()));
    ask_all(desk, by_sender, sender, &BY_SENDER);
    ask_all(desk, by_receiver, receiver, &BY_RECEIVER);
}

/// Makes all calls by the two handles, and drops them.
pub fn play_handles(desk: &Desk<u64>, passes: &mut [Pass<u64>], hands: Option<(Hand, Hand)>) {
    let Some((sender, receiver)) = hands else {
        return say!("  no handles");
    };
    let (calling, dropping) = passes.split_at_mut(CALLERS.min(passes.len()));
    call_each(desk, calling, &sender, &receiver);
    drop_both(desk, dropping, sender, receiver);
}
