//! Handles at a desk of one actor: clones, as many as there may be, and those that are gone or another desk's.

use crate::desks::opened::{OfOne, broadcast_of, open_one, watch_of};
use proved::RT;
use proved::rw_broadcast::{BCall, BReply};
use proved::rw_desk::{BRx, BTx, Desk, DeskFault, Ends, Kept, Made, Pass, WRx, WTx};
use proved::rw_watch::{WCall, WReply};
use proved::rw_world::{ChanCall, ChanReply, Spec};

/// A handle has this channel and this number.
fn same_place(channel: u32, number: u32, wanted: &[u64; 2]) {
    let found = [u64::from(channel), u64::from(number)];
    assert_eq!(found, *wanted);
}

/// What a writer's clone stores is read and waited for.
fn writes(desk: &Desk<u64>, pass: &mut Pass<u64>, second: &WTx, reader: &WRx) {
    same_place(second.channel(), second.number(), &[1, 2]);
    let answers = [
        desk.w_send_modify(&RT, pass, second, |value| *value = 4),
        desk.w_update(&RT, pass, reader),
        desk.w_wait_for(&RT, pass, reader, |value| *value == 4),
    ];
    let wanted = [
        Ok(WReply::Told(true)),
        Ok(WReply::Value(4)),
        Ok(WReply::Value(4)),
    ];
    assert_eq!(answers, wanted);
}

/// Clones the writer, and writes by the clone.
fn clones_a_writer(open: &mut OfOne) {
    let (writer, reader) = watch_of(&open.ends);
    let (desk, pass) = (&open.desk, &mut open.pass);
    match desk.w_clone_sender(&RT, pass, writer) {
        Ok(Made::New(second)) => writes(desk, pass, &second, reader),
        _ => panic!("no second writer"),
    }
}

/// A sender's clone counts the receivers.
fn counts(desk: &Desk<u64>, pass: &mut Pass<u64>, other: &BTx) {
    same_place(other.channel(), other.number(), &[0, 2]);
    let count = desk.b_receiver_count(&RT, pass, other);
    assert_eq!(count, Ok(BReply::Count(1)));
}

/// Clones the sender, and counts the receivers by the clone.
fn clones_a_sender(open: &mut OfOne) {
    let (sender, _) = broadcast_of(&open.ends);
    let (desk, pass) = (&open.desk, &mut open.pass);
    match desk.b_clone_sender(&RT, pass, sender) {
        Ok(Made::New(other)) => counts(desk, pass, &other),
        _ => panic!("no second sender"),
    }
}

#[test]
fn senders_that_are_cloned() {
    let mut open = open_one(&[Spec::Broadcast(2), Spec::Watch(1)]);
    clones_a_writer(&mut open);
    clones_a_sender(&mut open);
}

/// The closures of a writer that is dropped by the channel's number aren't called.
fn closures_are_left(open: &mut OfOne) {
    let (writer, _) = watch_of(&open.ends);
    let (desk, pass) = (&open.desk, &mut open.pass);
    let dropped = desk.call(&RT, pass, 0, ChanCall::W(WCall::DropHandle(0)));
    let wanted = Ok(ChanReply::W(WReply::Dropped));
    assert_eq!(dropped, wanted);
    let (mut was_called, mut was_called_then) = (false, false);
    let answers = [
        desk.w_send_if_modified(&RT, pass, writer, |value| {
            was_called = true;
            *value = 9;
            true
        }),
        desk.w_send_modify(&RT, pass, writer, |value| {
            was_called_then = true;
            *value = 9;
        }),
    ];
    assert_eq!(answers, [Ok(WReply::Gone); 2]);
    let called = [was_called, was_called_then];
    assert_eq!(called, [false; 2]);
}

/// The last two calls are modifications that change nothing.
fn last_two_are_unchanged(kept: &[Kept<u64>]) {
    let [.., first, second] = kept else {
        panic!("no two calls")
    };
    let unchanged = ChanCall::W(WCall::Modify {
        told: false,
        handle: 0,
        value: 4,
    });
    let calls = [(first.call, first.reply), (second.call, second.reply)];
    let gone = ChanReply::W(WReply::Gone);
    assert_eq!(calls, [(unchanged, gone); 2]);
}

/// Where the handle is refused, the closure isn't called, and the receipt holds the value as it is.
#[test]
fn closures_of_a_sender_that_is_gone() {
    let mut open = open_one(&[Spec::Watch(4)]);
    closures_are_left(&mut open);
    last_two_are_unchanged(open.pass.kept());
}

/// Clones the sender. The clone's number is this one.
fn clone_of(desk: &Desk<u64>, pass: &mut Pass<u64>, sender: &BTx, number: u32) -> BTx {
    match desk.b_clone_sender(&RT, pass, sender) {
        Ok(Made::New(clone)) => {
            same_place(clone.channel(), clone.number(), &[0, u64::from(number)]);
            clone
        }
        _ => panic!("no clone"),
    }
}

/// Clones the sender until there are as many handles as there may be. The last clone.
fn last_clone(desk: &Desk<u64>, pass: &mut Pass<u64>, sender: &BTx) -> BTx {
    for number in 2..65_535 {
        let _ = clone_of(desk, pass, sender, number);
    }
    clone_of(desk, pass, sender, 65_535)
}

/// There is no further clone.
fn has_no_clone(desk: &Desk<u64>, pass: &mut Pass<u64>, sender: &BTx) {
    let refused = desk.b_clone_sender(&RT, pass, sender);
    let wanted = Ok(Made::Refused(BReply::TooManyHandles));
    assert_eq!(refused, wanted);
}

/// A sender's clone is dropped.
fn drops_a_clone(desk: &Desk<u64>, pass: &mut Pass<u64>, clone: BTx) {
    match desk.b_drop_sender(&RT, pass, clone) {
        Ok(reply) => assert_eq!(reply, BReply::Dropped),
        Err(_) => panic!("not dropped"),
    }
}

/// There is no clone beyond the limit, even after one was dropped.
fn clones_to_the_limit(open: &mut OfOne) {
    let (sender, _) = broadcast_of(&open.ends);
    let (desk, pass) = (&open.desk, &mut open.pass);
    let last = last_clone(desk, pass, sender);
    has_no_clone(desk, pass, sender);
    drops_a_clone(desk, pass, last);
    has_no_clone(desk, pass, sender);
}

#[test]
fn handle_limit_at_a_desk() {
    let mut open = open_one(&[Spec::Broadcast(1)]);
    clones_to_the_limit(&mut open);
}

/// What was made on the other desk is no handle here, until this desk makes one of its number: it may be of another kind, and
/// may be dropped.
fn are_handles_by_number(open: &mut OfOne, second: &BTx, receiver: &BRx) {
    let (desk, pass) = (&open.desk, &mut open.pass);
    let unknown = desk.b_send(&RT, pass, second, 1);
    let made = desk.call(&RT, pass, 0, ChanCall::B(BCall::Subscribe(0)));
    let wrong = desk.b_send(&RT, pass, second, 1);
    let dropped = desk.call(&RT, pass, 0, ChanCall::B(BCall::DropHandle(1)));
    let gone = desk.b_recv(&RT, pass, receiver);
    let wanted = [
        Ok(ChanReply::B(BReply::New(2))),
        Ok(ChanReply::B(BReply::Dropped)),
    ];
    assert_eq!([made, dropped], wanted);
    let wanted = [Ok(BReply::Unknown), Ok(BReply::WrongKind), Ok(BReply::Gone)];
    assert_eq!([unknown, wrong, gone], wanted);
}

/// A sender of a channel that this desk doesn't have sends nothing, isn't dropped, and comes back.
fn comes_back(open: &mut OfOne, beyond: BTx) {
    let (desk, pass) = (&open.desk, &mut open.pass);
    let sent = desk.b_send(&RT, pass, &beyond, 1);
    assert_eq!(sent, Err(DeskFault::NoChannel));
    let back = match desk.b_drop_sender(&RT, pass, beyond) {
        Ok(_) => None,
        Err((fault, back)) => Some((fault, back.channel())),
    };
    assert_eq!(back, Some((DeskFault::NoChannel, 1)));
}

/// A clone of the first channel's sender, its receiver, and the second channel's sender.
fn clone_first(open: &mut OfOne) -> (BTx, BRx, BTx) {
    let (Some(Ends::Broadcast(beyond, _)), Some(Ends::Broadcast(sender, receiver))) =
        (open.ends.pop(), open.ends.pop())
    else {
        panic!("no two broadcasts")
    };
    let second = clone_of(&open.desk, &mut open.pass, &sender, 2);
    (second, receiver, beyond)
}

/// The same of a desk of two broadcasts, which is dropped then.
fn elsewhere() -> (BTx, BRx, BTx) {
    let mut open = open_one(&[Spec::Broadcast(2); 2]);

    clone_first(&mut open)
}

#[test]
fn handles_of_another_desk() {
    let (second, receiver, beyond) = elsewhere();
    let mut open = open_one(&[Spec::Broadcast(2)]);
    are_handles_by_number(&mut open, &second, &receiver);
    comes_back(&mut open, beyond);
}
