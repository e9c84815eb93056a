//! Rows of a watch, with tokio's sentences.
use super::{Channel, Row, Waiter};
use proved::Global;
use proved::rw_law::Reversible;
use proved::rw_waiting::WaitFor::{NoReceiver, Value};
use proved::rw_waiting::{WaitFor, Waiting, call_watch};
use proved::rw_watch::{WCall, WReply, Watch};

impl Channel for Watch<u64> {
    type Call = WCall<u64>;

    fn call(&mut self, waiting: &mut Waiting<Waiter>, call: &WCall<u64>) -> Vec<Waiter> {
        let (_, woken) = call_watch(Global, self, waiting, call);
        woken.into_values().collect()
    }

    fn waits(&mut self, what: WaitFor, handle: u32) -> bool {
        let call = match what {
            Value => WCall::Changed(handle),
            NoReceiver => WCall::AwaitClosed(handle),
        };
        let (reply, patch) = self.apply(&call);
        self.undo(&call, &patch);
        reply == WReply::Waits
    }
}

/// A watch of 7, with sender 0 and receiver 1, which has seen the value.
fn row() -> Row<Watch<u64>> {
    Row::of(Watch::open(Global, 7).unwrap())
}

fn modify(told: bool, value: u64) -> WCall<u64> {
    WCall::Modify {
        told,
        handle: 0,
        value,
    }
}

/// `changed`: "the method sleeps until a new message is sent by a Sender connected to this Receiver, or until all Senders are
/// dropped." The same value is a new message.
#[test]
fn a_send_wakes_all_in_the_order_in_which_they_began_to_wait() {
    let mut row = row();
    row.wakes(WCall::Subscribe(0), &[]);
    row.begins("second", Value, 2);
    row.begins("first", Value, 1);
    row.wakes(WCall::Send(0, 7), &["second", "first"]);
}

/// "Receivers are only notified if the closure returned `true`."
#[test]
fn a_silent_modification_wakes_nobody() {
    let mut row = row();
    row.begins("client", Value, 1);
    row.wakes(modify(false, 8), &[]);
    row.wakes(modify(true, 9), &["client"]);
    row.wakes(WCall::Changed(1), &[]);
    row.begins("client", Value, 1);
    row.wakes(WCall::SendReplace(0, 9), &["client"]);
}

/// `mark_changed` concerns its own receiver alone, and so do all calls that look.
#[test]
fn calls_of_others_that_tell_nothing_wake_nobody() {
    let mut row = row();
    row.wakes(WCall::CloneReceiver(1), &[]);
    row.begins("client", Value, 1);
    for call in [
        WCall::MarkChanged(2),
        WCall::MarkUnchanged(2),
        WCall::Borrow(1),
        WCall::Update(2),
        WCall::HasChanged(1),
        WCall::CloneReceiver(1),
        WCall::CloneSender(0),
        WCall::Subscribe(0),
        WCall::ReceiverCount(0),
        WCall::DropHandle(2),
    ] {
        row.wakes(call, &[]);
    }
    row.wakes(WCall::Send(0, 8), &["client"]);
}

/// `changed`: "Returns a `RecvError` if the channel has been closed __AND__ the current value is seen."
#[test]
fn the_last_senders_drop_wakes_those_who_wait_for_a_value() {
    let mut row = row();
    row.wakes(WCall::CloneSender(0), &[]);
    row.begins("client", Value, 1);
    row.wakes(WCall::DropHandle(2), &[]);
    row.wakes(WCall::DropHandle(0), &["client"]);
}

/// `closed`: "Completes when all receivers have dropped."
#[test]
fn the_last_receivers_drop_wakes_those_who_wait_for_no_receiver() {
    let mut row = row();
    row.wakes(WCall::CloneSender(0), &[]);
    row.begins("feed", NoReceiver, 2);
    row.begins("client", Value, 1);
    row.wakes(WCall::Subscribe(0), &[]);
    row.gives_up("client");
    row.wakes(WCall::DropHandle(1), &[]);
    row.wakes(WCall::Send(0, 8), &[]);
    row.wakes(WCall::DropHandle(3), &["feed"]);
    row.wakes(WCall::Subscribe(0), &[]);
    row.begins("feed again", NoReceiver, 0);
    row.wakes(WCall::DropHandle(4), &["feed again"]);
}

/// A receiver that looks, then loses the race to a send, and then registers, has nothing to wait for: what it looked at isn't the
/// value any more.
#[test]
fn who_registers_after_a_send_does_not_wait_for_it() {
    let mut row = row();
    assert!(row.channel.waits(Value, 1), "it has seen the value");
    row.wakes(WCall::Send(0, 8), &[]);
    assert!(!row.channel.waits(Value, 1), "the reply is another one now");
    row.wakes(WCall::Changed(1), &[]);
    row.begins("client", Value, 1);
}
