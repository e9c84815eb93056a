//! Desks that threads share.

use super::beside::{Play, plays};
use super::opened::has_kept;
use super::shared::{OfTwo, open_two, run_of_two, run_turned};
use crate::flags::is_awaited_in_time;
use proved::RT;
use proved::rw_broadcast::{BCall, BReply};
use proved::rw_desk::{BRx, BTx, Desk, Ends, Pass, WRx, WTx};
use proved::rw_journal::Run;
use proved::rw_watch::{WCall, WReply};
use proved::rw_world::{ChanCall, ChanReply, Spec};
use support::side_by_side;

/// The first channel is a watch, and has this value.
fn peeks(desk: &Desk<u64>, pass: &mut Pass<u64>, ends: &[Ends], value: u64) {
    match ends {
        [Ends::Watch(sender, _), ..] => {
            let peeked = desk.w_peek(&RT, pass, sender);
            assert_eq!(peeked, Ok(WReply::Value(value)));
        }
        _ => panic!("no watch"),
    }
}

/// An entry of a run: its stamp, its channel, its actor and its reply.
type Shown = (u64, u32, u32, ChanReply<u64>);

/// The entries of a run.
fn shown(run: &Run<u64>) -> Vec<Shown> {
    let mut shown = Vec::new();
    for entry in run.entries() {
        shown.push((entry.stamp, entry.call.channel, entry.actor, entry.reply));
    }
    shown
}

/// A run has these entries.
fn has_entries(run: Run<u64>, wanted: &[Shown]) {
    let shown = shown(&run);
    assert_eq!(shown.as_slice(), wanted);
}

#[test]
fn closures_of_two_threads() {
    let open = open_two(&[Spec::Watch(0)]);
    let (mut open, was_played) = plays(open, Play::Add);
    peeks(&open.desk, &mut open.first, &open.ends, 2000);
    let length = run_turned(open).unwrap().len();
    assert!(was_played);
    assert_eq!(length, 2001);
}

#[test]
fn threads_that_answer_each_other() {
    let open = open_two(&[Spec::Broadcast(2); 2]);
    let (open, was_played) = plays(open, Play::Answer);
    let length = run_of_two(open).unwrap().len();
    assert!(was_played);
    assert_eq!(length, 4000);
}

#[test]
fn a_value_for_a_thread_that_waits() {
    let open = open_two(&[Spec::Broadcast(2)]);
    let (open, in_time) = plays(open, Play::Receive);
    let wanted = [
        (1, 0, 1, ChanReply::B(BReply::Sent(1))),
        (2, 0, 0, ChanReply::B(BReply::Value(5))),
    ];
    has_entries(run_turned(open).unwrap(), &wanted);
    assert!(in_time);
}

#[test]
fn a_call_beside_a_closure_of_another_channel() {
    let open = open_two(&[Spec::Watch(0); 2]);
    let (mut open, in_time) = plays(open, Play::Modify);
    peeks(&open.desk, &mut open.second, &open.ends, 1);
    assert!(in_time);
}

#[test]
fn calls_of_two_threads_on_two_channels() {
    let open = open_two(&[Spec::Broadcast(2), Spec::Watch(5)]);
    let (open, in_time) = plays(open, Play::Hold);
    // The send came later, and is first in the run: by its stamp, and then by its channel.
    let wanted = [
        (1, 0, 0, ChanReply::B(BReply::Sent(1))),
        (1, 1, 1, ChanReply::W(WReply::Stored)),
    ];
    has_entries(run_of_two(open).unwrap(), &wanted);
    assert!(in_time);
}

/// What a thread waits by: for the value 3 of a watch, for the end of a broadcast, and for that of another watch.
struct Waits {
    reader: WRx,
    receiver: BRx,
    writer: WTx,
}

/// What ends these waits in another thread.
struct Ending {
    writer: WTx,
    sender: BTx,
    reader: WRx,
}

/// Waits by all three in turn.
fn wait_thrice(desk: &Desk<u64>, mut pass: Pass<u64>, waits: &Waits) -> Pass<u64> {
    let _ = desk.w_wait_for(&RT, &mut pass, &waits.reader, |value| *value == 3);
    let _ = desk.b_recv(&RT, &mut pass, &waits.receiver);
    let _ = desk.w_closed(&RT, &mut pass, &waits.writer);
    pass
}

/// Writes 1, 2 and 3, drops the only sender of the broadcast, and the only receiver of the other watch, each once the other
/// thread waits for it. Says whether that was so each time.
fn end_waits(desk: &Desk<u64>, pass: &mut Pass<u64>, ending: Ending) -> bool {
    let Ending {
        writer,
        sender,
        reader,
    } = ending;
    let mut in_time = true;
    for value in 1..=3 {
        in_time &= is_awaited_in_time(desk, 0);
        let _ = desk.w_send(&RT, pass, &writer, value);
    }
    in_time &= is_awaited_in_time(desk, 1);
    let _ = desk.b_drop_sender(&RT, pass, sender);
    in_time &= is_awaited_in_time(desk, 2);
    let _ = desk.w_drop_receiver(&RT, pass, reader);
    in_time
}

/// The waits in another thread, and what ends them in this one. Says whether each was seen before it was ended.
fn wait_beside(
    desk: &Desk<u64>,
    first: Pass<u64>,
    second: &mut Pass<u64>,
    waits: &Waits,
    ending: Ending,
) -> (Pass<u64>, bool) {
    side_by_side(
        || wait_thrice(desk, first, waits),
        || end_waits(desk, second, ending),
    )
}

/// The handles of a watch, a broadcast and another watch, as they wait and as they end that.
fn roles(ends: &mut proved::Vec<Ends>) -> (Waits, Ending) {
    let (
        Some(Ends::Watch(waiting, dropped)),
        Some(Ends::Broadcast(sender, receiver)),
        Some(Ends::Watch(writer, reader)),
    ) = (ends.pop(), ends.pop(), ends.pop())
    else {
        panic!("other ends");
    };
    let waits = Waits {
        reader,
        receiver,
        writer: waiting,
    };
    let ending = Ending {
        writer,
        sender,
        reader: dropped,
    };
    (waits, ending)
}

/// A call of a watch with its reply, as a receipt has them.
const fn of_watch(call: WCall<u64>, reply: WReply<u64>) -> (ChanCall<u64>, ChanReply<u64>) {
    (ChanCall::W(call), ChanReply::W(reply))
}

/// A wait of receiver 1 of a watch that a change has ended.
const CHANGED: (ChanCall<u64>, ChanReply<u64>) = of_watch(WCall::Changed(1), WReply::Done);

/// The receipts of the waits that are ended in turn.
static WAITED: [(ChanCall<u64>, ChanReply<u64>); 9] = [
    of_watch(WCall::Update(1), WReply::Value(0)),
    CHANGED,
    of_watch(WCall::Update(1), WReply::Value(1)),
    CHANGED,
    of_watch(WCall::Update(1), WReply::Value(2)),
    CHANGED,
    of_watch(WCall::Update(1), WReply::Value(3)),
    (ChanCall::B(BCall::Recv(1)), ChanReply::B(BReply::Closed)),
    of_watch(WCall::AwaitClosed(0), WReply::Done),
];

#[test]
fn waits_that_another_thread_ends() {
    let specs = [Spec::Watch(0), Spec::Broadcast(2), Spec::Watch(0)];
    let OfTwo {
        desk,
        first,
        mut second,
        mut ends,
    } = open_two(&specs);
    let (waits, ending) = roles(&mut ends);
    let (first, in_time) = wait_beside(&desk, first, &mut second, &waits, ending);
    has_kept("receipts", &first, &WAITED);
    assert!(in_time);
}

/// The receipts of the wait for the value 3.
static MODIFIED: [(ChanCall<u64>, ChanReply<u64>); 5] = [
    of_watch(WCall::Update(1), WReply::Value(0)),
    CHANGED,
    of_watch(WCall::Update(1), WReply::Value(1)),
    CHANGED,
    of_watch(WCall::Update(1), WReply::Value(3)),
];

#[test]
fn closures_for_a_thread_that_waits() {
    let open = open_two(&[Spec::Watch(0)]);
    let (open, in_time) = plays(open, Play::AddForReader);
    has_kept("receipts", &open.first, &MODIFIED);
    assert!(in_time);
}
