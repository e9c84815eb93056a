//! The calls that each kind of handle has.

use crate::desks::hand::Hand;
use proved::RT;
use proved::rw_broadcast::{BCall, BReply};
use proved::rw_desk::{BRx, BTx, Desk, DeskFault, Made, Pass, WRx, WTx};
use proved::rw_watch::{WCall, WReply};
use proved::rw_world::{ChanCall, ChanReply};

/// What a call by a handle returned.
pub struct Called {
    pub reply: Result<ChanReply<u64>, DeskFault>,
    /// The handle that the call made. One that is dropped as a value stays alive in its channel.
    pub made: Option<Hand>,
    /// Whether the call's closure was called.
    pub was_called: bool,
}

/// What a call returned that may have made a handle: its reply, and the handle.
macro_rules! made {
    ($made:expr, $handle:ident, $reply:ident) => {
        match $made {
            Made::New(handle) => ($reply::New(handle.number()), Some(Hand::$handle(handle))),
            Made::Refused(reply) => (reply, None),
        }
    };
}

/// A call by a sender of a broadcast. A call of another kind of handle is refused with `NoChannel`.
fn by_b_sender(
    desk: &Desk<u64>,
    pass: &mut Pass<u64>,
    sender: &BTx,
    call: BCall<u64>,
) -> Result<(BReply<u64>, Option<Hand>), DeskFault> {
    let answer = match call {
        BCall::Send(_, value) => (desk.b_send(&RT, pass, sender, value)?, None),
        BCall::SenderLen(_) => (desk.b_sender_len(&RT, pass, sender)?, None),
        BCall::ReceiverCount(_) => (desk.b_receiver_count(&RT, pass, sender)?, None),
        BCall::Subscribe(_) => made!(desk.b_subscribe(&RT, pass, sender)?, BRx, BReply),
        BCall::CloneSender(_) => made!(desk.b_clone_sender(&RT, pass, sender)?, BTx, BReply),
        _ => return Err(DeskFault::NoChannel),
    };
    Ok(answer)
}

/// A call by a receiver of a broadcast.
fn by_b_receiver(
    desk: &Desk<u64>,
    pass: &mut Pass<u64>,
    receiver: &BRx,
    call: BCall<u64>,
) -> Result<(BReply<u64>, Option<Hand>), DeskFault> {
    let answer = match call {
        BCall::TryRecv(_) => (desk.b_try_recv(&RT, pass, receiver)?, None),
        BCall::Recv(_) => (desk.b_recv(&RT, pass, receiver)?, None),
        BCall::ReceiverLen(_) => (desk.b_receiver_len(&RT, pass, receiver)?, None),
        BCall::Resubscribe(_) => made!(desk.b_resubscribe(&RT, pass, receiver)?, BRx, BReply),
        _ => return Err(DeskFault::NoChannel),
    };
    Ok(answer)
}

/// A call by a sender of a watch that takes no closure.
fn by_w_sender(
    desk: &Desk<u64>,
    pass: &mut Pass<u64>,
    sender: &WTx,
    call: WCall<u64>,
) -> Result<(WReply<u64>, Option<Hand>), DeskFault> {
    let answer = match call {
        WCall::Send(_, value) => (desk.w_send(&RT, pass, sender, value)?, None),
        WCall::SendReplace(_, value) => (desk.w_send_replace(&RT, pass, sender, value)?, None),
        WCall::Borrow(_) => (desk.w_peek(&RT, pass, sender)?, None),
        WCall::ReceiverCount(_) => (desk.w_receiver_count(&RT, pass, sender)?, None),
        WCall::IsClosed(_) => (desk.w_is_closed(&RT, pass, sender)?, None),
        WCall::AwaitClosed(_) => (desk.w_closed(&RT, pass, sender)?, None),
        WCall::Subscribe(_) => made!(desk.w_subscribe(&RT, pass, sender)?, WRx, WReply),
        WCall::CloneSender(_) => made!(desk.w_clone_sender(&RT, pass, sender)?, WTx, WReply),
        _ => return Err(DeskFault::NoChannel),
    };
    Ok(answer)
}

/// A call by a receiver of a watch.
fn by_w_receiver(
    desk: &Desk<u64>,
    pass: &mut Pass<u64>,
    receiver: &WRx,
    call: WCall<u64>,
) -> Result<(WReply<u64>, Option<Hand>), DeskFault> {
    let answer = match call {
        WCall::Borrow(_) => (desk.w_borrow(&RT, pass, receiver)?, None),
        WCall::Update(_) => (desk.w_update(&RT, pass, receiver)?, None),
        WCall::HasChanged(_) => (desk.w_has_changed(&RT, pass, receiver)?, None),
        WCall::Changed(_) => (desk.w_changed(&RT, pass, receiver)?, None),
        WCall::MarkChanged(_) => (desk.w_mark_changed(&RT, pass, receiver)?, None),
        WCall::MarkUnchanged(_) => (desk.w_mark_unchanged(&RT, pass, receiver)?, None),
        WCall::CloneReceiver(_) => made!(desk.w_clone_receiver(&RT, pass, receiver)?, WRx, WReply),
        _ => return Err(DeskFault::NoChannel),
    };
    Ok(answer)
}

/// Stores a value by a closure that returns nothing, with which the receivers are notified. Also whether the closure was called.
fn modify(
    desk: &Desk<u64>,
    pass: &mut Pass<u64>,
    sender: &WTx,
    value: u64,
) -> (Result<WReply<u64>, DeskFault>, bool) {
    let mut was_called = false;
    let reply = desk.w_send_modify(&RT, pass, sender, |held| {
        was_called = true;
        *held = value;
    });
    (reply, was_called)
}

/// Stores a value by a closure that returns `false`, with which nobody is notified. Also whether the closure was called.
fn modify_silently(
    desk: &Desk<u64>,
    pass: &mut Pass<u64>,
    sender: &WTx,
    value: u64,
) -> (Result<WReply<u64>, DeskFault>, bool) {
    let mut was_called = false;
    let reply = desk.w_send_if_modified(&RT, pass, sender, |held| {
        was_called = true;
        *held = value;
        false
    });
    (reply, was_called)
}

/// What a call returned that takes no closure.
fn called<R>(
    answer: Result<(R, Option<Hand>), DeskFault>,
    reply: fn(R) -> ChanReply<u64>,
) -> Called {
    let (reply, made) = match answer {
        Ok((answer, made)) => (Ok(reply(answer)), made),
        Err(fault) => (Err(fault), None),
    };
    Called {
        reply,
        made,
        was_called: false,
    }
}

/// What a call returned that takes a closure.
fn of_closure((answer, was_called): (Result<WReply<u64>, DeskFault>, bool)) -> Called {
    let answer = answer.map(|reply| (reply, None));
    Called {
        was_called,
        ..called(answer, ChanReply::W)
    }
}

/// Makes a call by a handle. The handle's number in the call isn't looked at. A call that this kind of handle doesn't have, and a
/// drop, are refused with `NoChannel`.
pub fn call_by(desk: &Desk<u64>, pass: &mut Pass<u64>, hand: &Hand, call: ChanCall<u64>) -> Called {
    match (hand, call) {
        (Hand::BTx(sender), ChanCall::B(call)) => {
            called(by_b_sender(desk, pass, sender, call), ChanReply::B)
        }
        (Hand::BRx(receiver), ChanCall::B(call)) => {
            called(by_b_receiver(desk, pass, receiver, call), ChanReply::B)
        }
        (
            Hand::WTx(sender),
            ChanCall::W(WCall::Modify {
                told: true, value, ..
            }),
        ) => of_closure(modify(desk, pass, sender, value)),
        (Hand::WTx(sender), ChanCall::W(WCall::Modify { value, .. })) => {
            of_closure(modify_silently(desk, pass, sender, value))
        }
        (Hand::WTx(sender), ChanCall::W(call)) => {
            called(by_w_sender(desk, pass, sender, call), ChanReply::W)
        }
        (Hand::WRx(receiver), ChanCall::W(call)) => {
            called(by_w_receiver(desk, pass, receiver, call), ChanReply::W)
        }
        _ => called(Err(DeskFault::NoChannel), ChanReply::W),
    }
}

/// What the drop of a handle returned. Beside a fault the handle comes back.
fn dropped<H, R>(
    answer: Result<R, (DeskFault, H)>,
    reply: fn(R) -> ChanReply<u64>,
    hand: fn(H) -> Hand,
) -> Result<ChanReply<u64>, (DeskFault, Hand)> {
    answer
        .map(reply)
        .map_err(|(fault, handle)| (fault, hand(handle)))
}

/// Drops a handle in its channel. Beside a fault it comes back.
pub fn drop_hand(
    desk: &Desk<u64>,
    pass: &mut Pass<u64>,
    hand: Hand,
) -> Result<ChanReply<u64>, (DeskFault, Hand)> {
    use ChanReply::{B, W};
    match hand {
        Hand::BTx(sender) => dropped(desk.b_drop_sender(&RT, pass, sender), B, Hand::BTx),
        Hand::BRx(receiver) => dropped(desk.b_drop_receiver(&RT, pass, receiver), B, Hand::BRx),
        Hand::WTx(sender) => dropped(desk.w_drop_sender(&RT, pass, sender), W, Hand::WTx),
        Hand::WRx(receiver) => dropped(desk.w_drop_receiver(&RT, pass, receiver), W, Hand::WRx),
    }
}

/// Waits by a receiver of a watch for a value that is at least this. Another handle is refused with `NoChannel`.
pub fn wait_until(
    desk: &Desk<u64>,
    pass: &mut Pass<u64>,
    receiver: &Hand,
    least: u64,
) -> Result<WReply<u64>, DeskFault> {
    match receiver {
        Hand::WRx(receiver) => desk.w_wait_for(&RT, pass, receiver, |value| *value >= least),
        _ => Err(DeskFault::NoChannel),
    }
}
