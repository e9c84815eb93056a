//! A desk with a channel whose journal is full.

use super::opened::{OfOne, broadcast_of, open_one, run_of_one, watch_of};
use proved::RT;
use proved::rw_broadcast::{BCall, BReply};
use proved::rw_desk::{BTx, Desk, DeskFault, Pass};
use proved::rw_law::Entry;
use proved::rw_watch::{WCall, WReply};
use proved::rw_world::{ChanCall, ChanReply, Spec, World};

/// Sends as many values as a channel's journal has entries.
fn fill(desk: &Desk<u64>, pass: &mut Pass<u64>, sender: &BTx) {
    for value in 1..=1_048_576 {
        let sent = desk.b_send(&RT, pass, sender, value);
        assert_eq!(sent, Ok(BReply::Sent(1)));
    }
}

/// A call on the full channel is refused, whatever it is, but one that strays.
fn is_full(desk: &Desk<u64>, pass: &mut Pass<u64>, sender: &BTx) {
    let full = Err(DeskFault::JournalFull);
    let answers = [
        desk.b_send(&RT, pass, sender, 9),
        desk.b_receiver_count(&RT, pass, sender),
    ];
    assert_eq!(answers, [full, full]);
    let strayed = desk.call(&RT, pass, 0, ChanCall::W(WCall::Borrow(1)));
    assert_eq!(strayed, Err(DeskFault::NoChannel));
    let counts = [pass.stamp(), pass.kept().len() as u64];
    assert_eq!(counts, [1_048_576, 1_048_576]);
}

/// The last entries are the last one of the full channel, and one of the other.
fn ends_on_both(entries: &[Entry<World<u64>>]) {
    let [.., last, other] = entries else {
        panic!("no two entries")
    };
    let places = [
        (last.stamp, last.call.channel),
        (other.stamp, other.call.channel),
    ];
    assert_eq!(places, [(1_048_576, 0), (1_048_577, 1)]);
    let calls = [(last.call.call, last.reply), (other.call.call, other.reply)];
    let wanted = [
        (
            ChanCall::B(BCall::Send(0, 1_048_576)),
            ChanReply::B(BReply::Sent(1)),
        ),
        (ChanCall::W(WCall::Send(0, 2)), ChanReply::W(WReply::Stored)),
    ];
    assert_eq!(calls, wanted);
}

/// Fills the first channel, which refuses calls then, and calls the other.
fn fills_one(open: &mut OfOne) {
    let (sender, _) = broadcast_of(&open.ends);
    let (writer, _) = watch_of(&open.ends);
    let (desk, pass) = (&open.desk, &mut open.pass);
    fill(desk, pass, sender);
    is_full(desk, pass, sender);
    is_full(desk, pass, sender);
    let stored = desk.w_send(&RT, pass, writer, 2);
    assert_eq!(stored, Ok(WReply::Stored));
    assert_eq!(pass.stamp(), 1_048_577);
}

/// The desk closes, and its run ends on both channels.
fn closes_on_both(open: OfOne) {
    let run = run_of_one(open).unwrap();
    ends_on_both(run.entries());
    assert_eq!(run.len(), 1_048_577);
}

#[test]
fn a_full_channel_of_a_desk() {
    let mut open = open_one(&[Spec::Broadcast(1), Spec::Watch(1)]);
    fills_one(&mut open);
    closes_on_both(open)
}
