//! Calls on a watch of a desk by its handles. Each is made by another actor, whose pass has no room for a receipt yet.

use crate::callers::{ask, ask_all, ask_drop, say_reply};
use crate::calls::held;
use crate::desks::{hands_in, last_hands};
use crate::met::{refused, say};
use proved::Vec;
use proved::rw_desk::{Desk, DeskFault, Ends, Pass};
use proved::rw_watch::{WCall, WReply};
use proved::rw_world::ChanCall;
use support::desks::{Hand, wait_until};

/// What is called by sender 0. A value is modified by a closure, which returns nothing or `false`.
static BY_SENDER: [ChanCall<u64>; 9] = [
    ChanCall::W(WCall::Send(0, 8)),
    ChanCall::W(WCall::Borrow(0)),
    ChanCall::W(WCall::SendReplace(0, 9)),
    ChanCall::W(WCall::Modify {
        told: true,
        handle: 0,
        value: 10,
    }),
    ChanCall::W(WCall::Modify {
        told: false,
        handle: 0,
        value: 11,
    }),
    ChanCall::W(WCall::Subscribe(0)),
    ChanCall::W(WCall::CloneSender(0)),
    ChanCall::W(WCall::ReceiverCount(0)),
    ChanCall::W(WCall::IsClosed(0)),
];

/// What is called then by receiver 1.
static BY_RECEIVER: [ChanCall<u64>; 9] = [
    ChanCall::W(WCall::HasChanged(1)),
    ChanCall::W(WCall::Changed(1)),
    ChanCall::W(WCall::HasChanged(1)),
    ChanCall::W(WCall::Borrow(1)),
    ChanCall::W(WCall::MarkChanged(1)),
    ChanCall::W(WCall::HasChanged(1)),
    ChanCall::W(WCall::MarkUnchanged(1)),
    ChanCall::W(WCall::Update(1)),
    ChanCall::W(WCall::CloneReceiver(1)),
];

/// How many actors there are: one for each of these calls, and one who waits for a value.
pub const ACTORS: u32 = 19;

/// Waits for a value that is at least this. Values that were read before a refusal stay recorded, and are read again.
fn wait_for(
    desk: &Desk<u64>,
    pass: &mut Pass<u64>,
    receiver: &Hand,
    least: u64,
) -> Result<WReply<u64>, DeskFault> {
    let (receipts, _) = held(pass);
    match wait_until(desk, pass, receiver, least) {
        Err(DeskFault::NoMemory) => {
            let (more, _) = held(pass);
            refused(more >= receipts);
            wait_until(desk, pass, receiver, least)
        }
        answer => answer,
    }
}

/// Says what is found by a wait for a value.
fn say_value(found: &Result<WReply<u64>, DeskFault>) {
    say!("  {found:?}")
}

/// Waits for a value that is there already, and says what is found.
fn say_wait(desk: &Desk<u64>, passes: &mut [Pass<u64>], receiver: &Hand) {
    match passes {
        [pass] => say_value(&wait_for(desk, pass, receiver, 11)),
        _ => say!("  not one pass is left"),
    }
}

/// Makes all calls by the two handles, and waits for a value that is there already. The handles are forgotten then.
pub fn play_handles(desk: &Desk<u64>, passes: &mut [Pass<u64>], hands: Option<(Hand, Hand)>) {
    let Some((sender, receiver)) = hands else {
        return say!("  no handles");
    };
    let (by_sender, rest) = passes.split_at_mut(BY_SENDER.len().min(passes.len()));
    let (by_receiver, rest) = rest.split_at_mut(BY_RECEIVER.len().min(rest.len()));
    ask_all(desk, by_sender, &sender, &BY_SENDER);
    ask_all(desk, by_receiver, &receiver, &BY_RECEIVER);
    say_wait(desk, rest, &receiver);
}

/// Drops the receiver of a watch, which is closed then.
fn close_for_sender(desk: &Desk<u64>, passes: &mut [Pass<u64>], hands: Option<(Hand, Hand)>) {
    let (Some((sender, receiver)), [first, second, ..]) = (hands, passes) else {
        return say!("  no handles or passes");
    };
    let dropped = ask_drop(desk, first, receiver);
    let awaited = ChanCall::W(WCall::AwaitClosed(0));
    let closed = ask(desk, second, &sender, awaited);
    say_reply(&dropped);
    say_reply(&closed);
}

/// Drops the sender of a watch, and waits for a value that never comes then.
fn close_for_receiver(desk: &Desk<u64>, passes: &mut [Pass<u64>], hands: Option<(Hand, Hand)>) {
    let (Some((sender, receiver)), [.., third, fourth]) = (hands, passes) else {
        return say!("  no handles or passes");
    };
    let dropped = ask_drop(desk, third, sender);
    let closed = wait_for(desk, fourth, &receiver, 9);
    say_reply(&dropped);
    say_value(&closed);
}

/// Closes a desk's first watch for its sender, and the second for its receiver.
pub fn close_both(desk: &Desk<u64>, passes: &mut [Pass<u64>], mut ends: Vec<Ends>) {
    let second = hands_in(ends.pop());
    let first = last_hands(ends);
    close_for_sender(desk, passes, first);
    close_for_receiver(desk, passes, second);
}
