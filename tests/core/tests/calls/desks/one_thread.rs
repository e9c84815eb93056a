//! Desks of one actor, and what is refused.

use proved::Global;
use proved::RT;
mod handles;

use super::opened::{
    OfOne, broadcast_of, has_kept, length_of_one, open_one, order, run_of, run_of_one, watch_of,
};
use super::shared::{OfTwo, open_two, run_of_two};
use proved::rw_broadcast::{BCall, BReply};
use proved::rw_desk::compare;
use proved::rw_desk::{CloseFault, Desk, DeskFault, DeskOpenFault, Ends, Kept, Pass, WRx, WTx};
use proved::rw_journal::Run;
use proved::rw_watch::{WCall, WReply};
use proved::rw_world::{ChanCall, ChanReply, OpenFault, Spec};

/// A value is sent and received, a call would wait, and one strays.
fn answers_to_one_actor(open: &mut OfOne) {
    let (sender, receiver) = broadcast_of(&open.ends);
    let (desk, pass) = (&open.desk, &mut open.pass);
    let answers = [
        desk.b_send(&RT, pass, sender, 4),
        desk.b_try_recv(&RT, pass, receiver),
        desk.b_try_recv(&RT, pass, receiver),
    ];
    let wanted = [Ok(BReply::Sent(1)), Ok(BReply::Value(4)), Ok(BReply::Empty)];
    assert_eq!(answers, wanted);
    let recv = ChanCall::B(BCall::Recv(1));
    let refused = [desk.call(&RT, pass, 0, recv), desk.call(&RT, pass, 1, recv)];
    let wanted = [Err(DeskFault::Waits), Err(DeskFault::NoChannel)];
    assert_eq!(refused, wanted);
}

/// The fault of a close without the pass, and the stamps and channels of the run of the next close, with it.
fn closes(open: OfOne) -> (CloseFault, Vec<(u64, u32)>) {
    let OfOne { desk, pass, .. } = open;
    let Err((fault, desk, passes)) = desk.close(Global, proved::Vec::new(Global)) else {
        panic!("closed without the pass");
    };
    let passes = passes.into_iter().chain([pass]);
    let run = run_of(desk, passes.collect()).unwrap();
    (fault, order(&run))
}

#[test]
fn desk_of_one_actor() {
    let mut open = open_one(&[Spec::Broadcast(2)]);
    answers_to_one_actor(&mut open);
    let (fault, order) = closes(open);
    assert_eq!(order, [(1, 0), (2, 0), (3, 0)]);
    assert_eq!(fault, CloseFault::Stranger(0));
}

/// The numbers of the first receipts that aren't entries of the run: of these receipts, of fewer and of other ones.
fn differences(run: &Run<u64>, kept: &[Kept<u64>; 3]) -> [Option<u64>; 3] {
    let [first, second, third] = kept;
    let other = Kept {
        reply: ChanReply::B(BReply::Value(5)),
        ..*second
    };
    [
        compare(run, 0, kept),
        compare(run, 0, &[*first, *second]),
        compare(run, 0, &[*first, other, *third]),
    ]
}

/// Sends a value, and receives twice. The receipts.
fn calls_thrice(open: &mut OfOne) -> [Kept<u64>; 3] {
    let (sender, receiver) = broadcast_of(&open.ends);
    let (desk, pass) = (&open.desk, &mut open.pass);
    let _sent = desk.b_send(&RT, pass, sender, 4);
    let _received = desk.b_try_recv(&RT, pass, receiver);
    let _nothing = desk.b_try_recv(&RT, pass, receiver);
    match pass.kept() {
        [first, second, third] => [*first, *second, *third],
        _ => panic!("not three receipts"),
    }
}

/// The number of the first receipt that isn't its actor's entry of the run.
#[test]
fn receipts_beside_a_run() {
    let mut open = open_one(&[Spec::Broadcast(2)]);
    let kept = calls_thrice(&mut open);
    let run = run_of_one(open).unwrap();
    let found = differences(&run, &kept);
    assert_eq!(found, [None, Some(2), Some(1)]);
}

/// The fault of a desk that isn't opened.
fn refusal(specs: &[Spec<u64>], actors: u32) -> Option<DeskOpenFault> {
    Desk::open(Global, specs, actors).err()
}

#[test]
fn desks_that_are_not_opened() {
    let one = [Spec::Broadcast(2)];
    let faults = [refusal(&one, 0), refusal(&one, 65), refusal(&[], 1)];
    let no_channels = Some(DeskOpenFault::World(OpenFault::NoChannels));
    let bad_actors = Some(DeskOpenFault::BadActors);
    assert_eq!(faults, [bad_actors, bad_actors, no_channels]);
}

/// How many entries and how many specs the run of the greatest desk has without a call.
fn lengths_without_calls() -> (u64, usize) {
    let (desk, passes, _ends) = Desk::open(Global, &[Spec::Watch(7); 64], 64).unwrap();
    let run = run_of(desk, passes).unwrap();
    (run.len(), run.specs().len())
}

#[test]
fn desk_without_calls() {
    let (entries, specs) = lengths_without_calls();
    assert_eq!([entries, specs as u64], [0, 64]);
}

/// The first actor sends three values, and the second, who heeds a stamp, writes one, at the next stamp.
fn heeds(open: &mut OfTwo, heed: u64, next: u64) {
    let (sender, _) = broadcast_of(&open.ends);
    let (writer, _) = watch_of(&open.ends);
    let desk = &open.desk;
    for _ in 0..3 {
        let sent = desk.b_send(&RT, &mut open.first, sender, 1);
        assert_eq!(sent, Ok(BReply::Sent(1)));
    }
    let second = &mut open.second;
    second.heed(heed);
    let stored = desk.w_send(&RT, second, writer, 6);
    assert_eq!(stored, Ok(WReply::Stored));
    assert_eq!(second.stamp(), next);
}

/// The run of a desk of two actors, of whom the second heeds a stamp, has these stamps and channels.
fn has_order(heed: u64, next: u64, wanted: &[(u64, u32)]) {
    let mut open = open_two(&[Spec::Broadcast(2), Spec::Watch(5)]);
    heeds(&mut open, heed, next);
    let order = order(&run_of_two(open).unwrap());
    assert_eq!(order, *wanted);
}

#[test]
fn heeded_stamps() {
    has_order(3, 4, &[(1, 0), (2, 0), (3, 0), (4, 1)]);
    has_order(0, 1, &[(1, 0), (1, 1), (2, 0), (3, 0)])
}

/// The only writer is dropped.
fn drops_a_writer(desk: &Desk<u64>, pass: &mut Pass<u64>, writer: WTx) {
    match desk.w_drop_sender(&RT, pass, writer) {
        Ok(reply) => assert_eq!(reply, WReply::Dropped),
        Err(_) => panic!("not dropped"),
    }
}

/// Nobody waits for a value of a watch that is closed.
fn is_closed(desk: &Desk<u64>, pass: &mut Pass<u64>, reader: &WRx) {
    let answer = desk.w_wait_for(&RT, pass, reader, |value| *value == 2);
    assert_eq!(answer, Ok(WReply::Closed));
}

/// The only writer is dropped, and then nobody waits for a value.
fn closes_a_watch(open: &mut OfOne) {
    let Some(Ends::Watch(writer, reader)) = open.ends.pop() else {
        panic!("no watch")
    };
    drops_a_writer(&open.desk, &mut open.pass, writer);
    is_closed(&open.desk, &mut open.pass, &reader);
}

/// The receipts of a wait at a watch that is closed.
static AT_CLOSED: [(ChanCall<u64>, ChanReply<u64>); 3] = [
    (
        ChanCall::W(WCall::DropHandle(0)),
        ChanReply::W(WReply::Dropped),
    ),
    (
        ChanCall::W(WCall::Update(1)),
        ChanReply::W(WReply::Value(1)),
    ),
    (ChanCall::W(WCall::Changed(1)), ChanReply::W(WReply::Closed)),
];

#[test]
fn wait_for_a_value_of_a_closed_watch() {
    let mut open = open_one(&[Spec::Watch(1)]);
    closes_a_watch(&mut open);
    has_kept("receipts", &open.pass, &AT_CLOSED);
    let length = length_of_one(open);
    assert_eq!(length, Ok(3));
}

/// Sends a value more than the greatest ring holds, and then receives the oldest that are left.
fn overfills(open: &mut OfOne) {
    let (sender, receiver) = broadcast_of(&open.ends);
    let (desk, pass) = (&open.desk, &mut open.pass);
    for value in 0..=65_536 {
        let sent = desk.b_send(&RT, pass, sender, value);
        assert_eq!(sent, Ok(BReply::Sent(1)));
    }
    let answers = [
        desk.b_receiver_len(&RT, pass, receiver),
        desk.b_try_recv(&RT, pass, receiver),
        desk.b_try_recv(&RT, pass, receiver),
        desk.b_try_recv(&RT, pass, receiver),
    ];
    let wanted = [
        Ok(BReply::Count(65_537)),
        Ok(BReply::Lagged(1)),
        Ok(BReply::Value(1)),
        Ok(BReply::Value(2)),
    ];
    assert_eq!(answers, wanted);
}

#[test]
fn ring_of_the_greatest_capacity() {
    let mut open = open_one(&[Spec::Broadcast(65_536)]);
    overfills(&mut open);
}

/// Each call of a broadcast is refused for lack of a stamp.
fn sends_nothing(open: &mut OfOne) {
    let (sender, receiver) = broadcast_of(&open.ends);
    let (desk, pass) = (&open.desk, &mut open.pass);
    let answers = [
        desk.b_send(&RT, pass, sender, 4),
        desk.b_recv(&RT, pass, receiver),
    ];
    assert_eq!(answers, [Err(DeskFault::JournalFull); 2]);
}

/// Each call of a watch is refused for lack of a stamp, and no closure is called.
fn writes_nothing(open: &mut OfOne) {
    let (writer, reader) = watch_of(&open.ends);
    let (desk, pass) = (&open.desk, &mut open.pass);
    let mut was_called = false;
    let answers = [
        desk.w_send_if_modified(&RT, pass, writer, |_| {
            was_called = true;
            true
        }),
        desk.w_wait_for(&RT, pass, reader, |_| true),
    ];
    assert_eq!(answers, [Err(DeskFault::JournalFull); 2]);
    assert!(!was_called);
}

/// Each call by the channel's number is refused for lack of a stamp, but one that strays.
fn strays_alone(desk: &Desk<u64>, pass: &mut Pass<u64>) {
    let recv = ChanCall::B(BCall::Recv(1));
    let answers = [
        desk.wait_call(&RT, pass, 0, recv),
        desk.call(&RT, pass, 1, recv),
    ];
    let wanted = [Err(DeskFault::JournalFull), Err(DeskFault::NoChannel)];
    assert_eq!(answers, wanted);
}

/// A writer comes back where its drop is refused for lack of a stamp, and nothing was recorded.
fn comes_back(open: &mut OfOne, heeded: u64) {
    let Some(Ends::Watch(writer, _)) = open.ends.pop() else {
        panic!("no watch")
    };
    let back = match open.desk.w_drop_sender(&RT, &mut open.pass, writer) {
        Ok(_) => None,
        Err((fault, writer)) => Some((fault, writer.number())),
    };
    assert_eq!(back, Some((DeskFault::JournalFull, 0)));
    let counts = [open.pass.stamp(), open.pass.kept().len() as u64];
    assert_eq!(counts, [heeded, 0]);
}

/// No call is recorded by an actor that has heeded a stamp after which there is none.
fn records_nothing(heeded: u64) {
    let mut open = open_one(&[Spec::Broadcast(2), Spec::Watch(1)]);
    open.pass.heed(heeded);
    sends_nothing(&mut open);
    writes_nothing(&mut open);
    strays_alone(&open.desk, &mut open.pass);
    comes_back(&mut open, heeded);
    let length = length_of_one(open).unwrap();
    assert_eq!(length, 0);
}

#[test]
fn no_stamp_is_left_at_a_desk() {
    for heeded in [1 << 62, u64::MAX] {
        records_nothing(heeded);
    }
}
