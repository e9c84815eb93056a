//! Channels with recorded calls: what a call returns, the text of their run, and what is found in it.

use crate::findings::{closing, late, loss, of_broadcast, of_watch};
use proved::Global;
use proved::rw_recording::{
    BCall, BReply, ChanCall, ChanReply, Closing, Cut, CutFault, Findings, Flight, Kind, LateReader,
    Loss, LossEnd, OpenFault, Recording, RunReader, Spec, TakeFault, TextFault, Totals, WCall,
    WReply,
};

/// A call and its result.
type Row = (ChanCall<u64>, Result<ChanReply<u64>, TakeFault>);

/// What the readers of a channel return: how many entries there are, how many senders, how many queued values, and of receiver 1 its
/// position, how many values it has yet to receive, and whether it has seen the value.
type State = (u64, u64, u64, Option<u64>, Option<u64>, Option<bool>);

/// The calls of a broadcast that retains two values, before and after a call of the watch. Each has the next stamp.
static SENDS: [Row; 2] = [
    (
        ChanCall::B(BCall::Send(0, 7)),
        Ok(ChanReply::B(BReply::Sent(1))),
    ),
    (
        ChanCall::B(BCall::Send(0, 8)),
        Ok(ChanReply::B(BReply::Sent(1))),
    ),
];

static CHANGE: [Row; 1] = [(
    ChanCall::W(WCall::Send(0, 6)),
    Ok(ChanReply::W(WReply::Stored)),
)];

static OVERRUN: [Row; 3] = [
    (
        ChanCall::B(BCall::Send(0, 9)),
        Ok(ChanReply::B(BReply::Sent(1))),
    ),
    (
        ChanCall::B(BCall::TryRecv(1)),
        Ok(ChanReply::B(BReply::Lagged(1))),
    ),
    (
        ChanCall::B(BCall::DropHandle(0)),
        Ok(ChanReply::B(BReply::Dropped)),
    ),
];

/// Further calls of the watch. Two of them aren't recorded.
static UPDATES: [Row; 3] = [
    (
        ChanCall::W(WCall::Update(1)),
        Ok(ChanReply::W(WReply::Value(6))),
    ),
    (ChanCall::W(WCall::Changed(1)), Err(TakeFault::Waits)),
    (ChanCall::B(BCall::TryRecv(1)), Err(TakeFault::NoChannel)),
];

/// Calls of the watch once its calls are no longer recorded.
static UNRECORDED: [Row; 3] = [
    (
        ChanCall::W(WCall::Changed(1)),
        Ok(ChanReply::W(WReply::Waits)),
    ),
    (ChanCall::B(BCall::TryRecv(1)), Ok(ChanReply::NoChannel)),
    (
        ChanCall::W(WCall::SendReplace(0, 4)),
        Ok(ChanReply::W(WReply::Old(6))),
    ),
];

/// The text of the first six calls.
const TEXT: &[u8] =
    b"ttd-journal 2\nbroadcast 2\nwatch 5\nsteps\n1 0 0 send 0 7 = sent 1\n2 0 0 send 0 8 = sent 1\n3 0 1 send 0 6 = stored\n4 0 0 send 0 9 = sent 1\n5 0 0 try-recv 1 = lagged 1\n6 0 0 drop 0 = dropped\nend\n";

/// The same calls, with their stamps.
static CALLS: [(u64, ChanCall<u64>); 6] = [
    (1, ChanCall::B(BCall::Send(0, 7))),
    (2, ChanCall::B(BCall::Send(0, 8))),
    (3, ChanCall::W(WCall::Send(0, 6))),
    (4, ChanCall::B(BCall::Send(0, 9))),
    (5, ChanCall::B(BCall::TryRecv(1))),
    (6, ChanCall::B(BCall::DropHandle(0))),
];

static LOSSES: [Loss; 1] = [loss(0, 1, (4, 1), LossEnd::Told(5))];

static TOTALS: [Totals; 2] = [
    of_broadcast(0, 1, [0, 1, 1, 1, 4], Some(2)),
    of_watch(1, 1, [0, 1, 1]),
];

static CLOSINGS: [Closing; 1] = [closing(0, 6)];

static LATE: [LateReader; 1] = [late(0, 1, None, 0)];

/// Makes a call by actor 0.
fn made(
    recording: &mut Recording,
    clock: u64,
    call: ChanCall<u64>,
) -> Result<ChanReply<u64>, TakeFault> {
    recording.call(0, clock, call)
}

/// Asserts that the calls of a channel have these results, each with the clock of the one before it. Returns the clock after them.
fn are_made(recording: &mut Recording, from: u64, rows: &[Row]) -> u64 {
    let mut clock = from;
    for (call, want) in rows {
        let found = made(recording, clock, *call);
        assert_eq!((*call, found), (*call, *want));
        clock = clock.wrapping_add(1);
    }
    clock
}

/// Returns what the readers of a channel return.
fn state_of(recording: &Recording) -> State {
    (
        recording.len(),
        recording.alive(Kind::Sender),
        recording.queued(),
        recording.position(1),
        recording.unread(1),
        recording.is_seen(1),
    )
}

/// Returns the text of the run of two channels up to a stamp.
fn text_of(first: &Recording, second: &Recording, cut: u64) -> Result<proved::Vec<u8>, CutFault> {
    let mut both = Cut::new(Global);
    both.add(Global, first, cut)?;
    both.add(Global, second, cut)?;
    both.text(Global)
}

/// Returns the stamp and the call of each entry of a text's run, up to ten.
fn calls_of(text: &[u8]) -> Result<Vec<(u64, ChanCall<u64>)>, TextFault> {
    let mut reader = RunReader::read(Global, text)?;
    let mut calls = Vec::new();
    for _ in 0..10 {
        let Some(entry) = reader.next_call() else {
            break;
        };
        calls.push((entry.stamp, entry.call.call));
    }
    Ok(calls)
}

/// Opens a broadcast and a watch, and makes the calls of the text.
fn recorded() -> (Recording, Recording) {
    let mut broadcast = Recording::open(Global, Spec::Broadcast(2)).unwrap();
    let mut watch = Recording::open(Global, Spec::Watch(5)).unwrap();
    let clock = are_made(&mut broadcast, 0, &SENDS);
    let clock = are_made(&mut watch, clock, &CHANGE);
    are_made(&mut broadcast, clock, &OVERRUN);
    (broadcast, watch)
}

/// Returns why a channel of this capacity isn't opened.
fn refusal_of(capacity: u32) -> Option<OpenFault> {
    Recording::open(Global, Spec::Broadcast(capacity)).err()
}

#[test]
fn a_bad_capacity_is_refused() {
    assert_eq!(refusal_of(0), Some(OpenFault::BadCapacity(0)));
    assert_eq!(refusal_of(65_536), None);
    assert_eq!(refusal_of(65_537), Some(OpenFault::BadCapacity(0)));
}

#[test]
fn calls_are_recorded_until_recording_ends() {
    let (broadcast, mut watch) = recorded();
    assert_eq!(state_of(&broadcast), (5, 0, 2, Some(1), Some(2), None));
    assert_eq!(state_of(&watch), (1, 1, 0, None, None, Some(false)));
    are_made(&mut watch, 6, &UPDATES);
    assert_eq!(state_of(&watch), (2, 1, 0, None, None, Some(true)));
    watch.end();
    are_made(&mut watch, 7, &UNRECORDED);
    assert_eq!(state_of(&watch), (2, 1, 0, None, None, Some(false)));
}

/// Calls of the broadcast once receiver 1, the one handle that is left, has number 0.
static RENUMBERED: [Row; 3] = [
    (
        ChanCall::B(BCall::TryRecv(1)),
        Ok(ChanReply::B(BReply::Unknown)),
    ),
    (
        ChanCall::B(BCall::TryRecv(0)),
        Ok(ChanReply::B(BReply::Value(8))),
    ),
    (
        ChanCall::B(BCall::Resubscribe(0)),
        Ok(ChanReply::B(BReply::New(1))),
    ),
];

#[test]
fn handles_get_new_numbers_once_recording_has_ended() {
    let (mut broadcast, watch) = recorded();
    let recorded = broadcast.renumber(Global).unwrap();
    let state = state_of(&broadcast);
    broadcast.end();
    let ended = broadcast.renumber(Global).unwrap().unwrap();
    assert_eq!((recorded, state), (None, (5, 0, 2, Some(1), Some(2), None)));
    assert_eq!(ended.as_slice(), &[1]);
    are_made(&mut broadcast, 6, &RENUMBERED);
    let text = text_of(&broadcast, &watch, 6);
    assert_eq!(text.unwrap().as_slice(), TEXT);
}

#[test]
fn a_cut_has_the_text_of_the_run() {
    let (broadcast, mut watch) = recorded();
    are_made(&mut watch, 6, &UPDATES);
    let text = text_of(&broadcast, &watch, 6);
    assert_eq!(text.unwrap().as_slice(), TEXT);
}

#[test]
fn a_text_has_its_findings_and_calls() {
    let found = Findings::read(Global, TEXT).unwrap();
    assert_eq!(found.entries(), 6);
    assert_eq!(found.losses(), &LOSSES[..]);
    assert_eq!(found.totals(), &TOTALS[..]);
    assert_eq!(found.closings(), &CLOSINGS[..]);
    assert_eq!(found.late(), &LATE[..]);
    let calls = calls_of(TEXT).unwrap();
    assert_eq!(calls.as_slice(), &CALLS[..]);
}

/// Lines in the place of the fourth, by which a text of one broadcast begins otherwise, and its first fault.
static FAULTS: [(&[u8], TextFault); 5] = [
    (b"1 0 0 sent 0 7 = sent 1\nend\n", TextFault::Malformed(4)),
    (
        b"1 64 0 send 0 7 = sent 1\nend\n",
        TextFault::LimitExceeded(4),
    ),
    (b"0 0 0 send 0 7 = sent 1\nend\n", TextFault::WrongOrder(4)),
    (b"1 0 0 send 0 7 = sent 2\nend\n", TextFault::WrongReply(4)),
    (b"1 0 0 send 0 7 = sent 1\n", TextFault::Truncated),
];

#[test]
fn a_faulty_text_has_its_first_fault_and_memory_is_not_blamed() {
    for (lines, fault) in &FAULTS {
        let text = [b"ttd-journal 2\nbroadcast 2\nsteps\n", *lines].concat();
        assert_eq!(Findings::read(Global, &text).err(), Some(*fault));
        assert_eq!(RunReader::read(Global, &text).err(), Some(*fault));
    }
}

/// A call in each word of a broadcast, but those that would wait. The handles that are created have the numbers from 2 on.
static OF_BROADCAST: [BCall<u64>; 13] = [
    BCall::Send(0, 7),
    BCall::Subscribe(0),
    BCall::CloneSender(0),
    BCall::Resubscribe(1),
    BCall::Downgrade(0),
    BCall::Upgrade(5),
    BCall::CloneWeak(5),
    BCall::SenderLen(0),
    BCall::ReceiverCount(0),
    BCall::ReceiverLen(1),
    BCall::Recv(1),
    BCall::TryRecv(1),
    BCall::DropHandle(1),
];

/// The same of a watch.
static OF_WATCH: [WCall<u64>; 15] = [
    WCall::Send(0, 6),
    WCall::SendReplace(0, 7),
    WCall::Modify {
        told: true,
        handle: 0,
        value: 8,
    },
    WCall::Subscribe(0),
    WCall::CloneSender(0),
    WCall::CloneReceiver(1),
    WCall::Borrow(1),
    WCall::HasChanged(1),
    WCall::MarkUnchanged(1),
    WCall::MarkChanged(1),
    WCall::Changed(1),
    WCall::Update(1),
    WCall::ReceiverCount(0),
    WCall::IsClosed(0),
    WCall::DropHandle(1),
];

/// Records calls, and asserts that they are those of the text.
fn are_kept(spec: Spec<u64>, calls: &[ChanCall<u64>]) {
    let mut recording = Recording::open(Global, spec).unwrap();
    for (clock, call) in (0..).zip(calls) {
        recording.call(0, clock, *call).unwrap();
    }
    let mut cut = Cut::new(Global);
    cut.add(Global, &recording, calls.len() as u64).unwrap();
    let text = cut.text(Global).unwrap();
    let mut reader = RunReader::read(Global, &text).unwrap();
    let kept = std::iter::from_fn(|| reader.next_call());
    assert!(kept.map(|entry| entry.call.call).eq(calls.iter().copied()));
}

#[test]
fn each_call_is_in_the_text_as_it_was_made() {
    are_kept(Spec::Broadcast(2), &OF_BROADCAST.map(ChanCall::B));
    are_kept(Spec::Watch(5), &OF_WATCH.map(ChanCall::W));
}

#[test]
fn stamps_go_on_where_handles_get_new_numbers() {
    let mut flight = Flight::open(Global, Spec::Broadcast(2), 10).unwrap();
    let before = [BCall::Send(0, 7), BCall::Subscribe(0), BCall::DropHandle(2)];
    for (clock, call) in (0..).zip(before) {
        flight.call(0, clock, ChanCall::B(call)).unwrap();
    }
    assert!(flight.renumber(Global).unwrap().is_some());
    // By an actor that has made no call.
    let call = ChanCall::B(BCall::TryRecv(1));
    let reply = ChanReply::B(BReply::Value(7));
    assert_eq!(flight.call(1, 0, call), Ok(reply));
    let lead = flight.kept(Global).unwrap().lead(Global, 63, 0).unwrap();
    assert_eq!(lead.play(0).unwrap().recording().len(), 4);
}
