//! Rows of a broadcast, with tokio's sentences.
use super::{Channel, Row, Waiter};
use proved::Global;
use proved::rw_broadcast::{BCall, BReply, Broadcast};
use proved::rw_law::Reversible;
use proved::rw_waiting::WaitFor::{NoReceiver, Value};
use proved::rw_waiting::{WaitFor, Waiting, call_broadcast};

impl Channel for Broadcast<u64> {
    type Call = BCall<u64>;

    fn call(&mut self, waiting: &mut Waiting<Waiter>, call: &BCall<u64>) -> Vec<Waiter> {
        let (_, woken) = call_broadcast(Global, self, waiting, call);
        woken.into_values().collect()
    }

    fn waits(&mut self, what: WaitFor, handle: u32) -> bool {
        match what {
            Value => replies(self, BCall::Recv(handle)) == BReply::Waits,
            NoReceiver => replies(self, BCall::ReceiverCount(handle)) != BReply::Count(0),
        }
    }
}

/// Asks a channel, which is as before then.
fn replies(channel: &mut Broadcast<u64>, call: BCall<u64>) -> BReply<u64> {
    let (reply, patch) = channel.apply(&call);
    channel.undo(&call, &patch);
    reply
}

/// A broadcast of capacity 2, with sender 0 and receiver 1.
fn row() -> Row<Broadcast<u64>> {
    Row::of(Broadcast::open(Global, 2).unwrap())
}

/// `recv`: "Receives the next value for this receiver." Each receiver gets each value, so a send wakes all.
#[test]
fn a_send_wakes_all_in_the_order_in_which_they_began_to_wait() {
    let mut row = row();
    row.wakes(BCall::Subscribe(0), &[]);
    row.begins("second", Value, 2);
    row.begins("first", Value, 1);
    row.wakes(BCall::Send(0, 7), &["second", "first"]);
}

/// Who has received the value waits for the next one, and another's receive is none.
#[test]
fn calls_of_others_that_send_nothing_wake_nobody() {
    let mut row = row();
    row.wakes(BCall::Subscribe(0), &[]);
    row.wakes(BCall::Send(0, 7), &[]);
    row.wakes(BCall::Recv(1), &[]);
    row.begins("audit", Value, 1);
    for call in [
        BCall::TryRecv(2),
        BCall::Subscribe(0),
        BCall::CloneSender(0),
        BCall::Resubscribe(1),
        BCall::ReceiverLen(1),
        BCall::SenderLen(0),
        BCall::ReceiverCount(0),
        BCall::Downgrade(0),
    ] {
        row.wakes(call, &[]);
    }
    row.wakes(BCall::Send(0, 8), &["audit"]);
}

/// `RecvError::Closed`: "There are no more active senders implying no further messages will ever be sent."
#[test]
fn the_last_senders_drop_wakes_those_who_wait_for_a_value() {
    let mut row = row();
    row.wakes(BCall::CloneSender(0), &[]);
    row.begins("audit", Value, 1);
    row.wakes(BCall::DropHandle(0), &[]);
    row.wakes(BCall::DropHandle(2), &["audit"]);
}

/// A weak sender "doesn't count towards RAII semantics": with the last sender the channel closes, whatever weak ones are left.
#[test]
fn a_weak_sender_keeps_nobody_waiting_and_its_drop_wakes_nobody() {
    let mut row = row();
    row.wakes(BCall::Downgrade(0), &[]);
    row.wakes(BCall::CloneWeak(2), &[]);
    row.begins("audit", Value, 1);
    row.wakes(BCall::DropHandle(3), &[]);
    row.wakes(BCall::DropHandle(0), &["audit"]);
}

/// `closed`: "A future which completes when the number of Receivers subscribed to this Sender reaches zero."
#[test]
fn the_last_receivers_drop_wakes_those_who_wait_for_no_receiver() {
    let mut row = row();
    row.wakes(BCall::Subscribe(0), &[]);
    row.wakes(BCall::CloneSender(0), &[]);
    row.begins("feed", NoReceiver, 0);
    row.begins("other feed", NoReceiver, 3);
    row.wakes(BCall::DropHandle(1), &[]);
    row.wakes(BCall::Send(0, 7), &[]);
    row.wakes(BCall::DropHandle(2), &["feed", "other feed"]);
}

/// A receiver that subscribes before the last one is dropped keeps `closed` waiting; one that comes later is no reason to take the
/// wake-up back.
#[test]
fn a_late_subscriber_keeps_the_channel_open_or_comes_too_late() {
    let mut row = row();
    row.begins("feed", NoReceiver, 0);
    row.wakes(BCall::Subscribe(0), &[]);
    row.wakes(BCall::DropHandle(1), &[]);
    row.wakes(BCall::DropHandle(2), &["feed"]);
    row.wakes(BCall::Subscribe(0), &[]);
    row.begins("feed again", NoReceiver, 0);
    row.wakes(BCall::DropHandle(3), &["feed again"]);
}

/// "This method is cancel safe": who gives up takes nobody's wake-up along, and nobody gets its ticket.
#[test]
fn who_gives_up_is_not_woken_and_all_others_are() {
    let mut row = row();
    row.wakes(BCall::Subscribe(0), &[]);
    row.wakes(BCall::Subscribe(0), &[]);
    row.begins("first", Value, 1);
    row.begins("second", Value, 2);
    row.begins("third", Value, 3);
    row.gives_up("second");
    row.begins("second again", Value, 2);
    row.wakes(BCall::Send(0, 7), &["first", "third", "second again"]);
}
