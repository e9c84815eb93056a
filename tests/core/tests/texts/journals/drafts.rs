//! Drafts of runs.

use super::walks::{ENDS, walked};
use crate::shared::{counts_of, push, step_of};
use proved::Global;
use proved::rw_broadcast::{BCall, BReply};
use proved::rw_journal::{PushFault, Run, RunDraft};
use proved::rw_law::Payload;
use proved::rw_watch::{WCall, WReply};
use proved::rw_world::{ChanCall, ChanReply, OpenFault, Spec};

/// One above the greatest stamp.
const TOO_LATE: u64 = (1 << 62) + 1;

/// An actor, a stamp and a channel, a call and its reply, and the result of the push.
type Push<V> = (
    u32,
    u64,
    u32,
    ChanCall<V>,
    ChanReply<V>,
    Result<(), PushFault>,
);

/// Asserts that these pushes on a draft have these results.
fn answers<V: Payload>(draft: &mut RunDraft<V>, pushes: &[Push<V>]) {
    for (actor, stamp, channel, call, reply, answer) in pushes {
        let found = push(draft, *actor, *stamp, *channel, *call, *reply);
        assert_eq!(found, *answer, "case {}", *stamp);
    }
}

/// Asserts that a run has entries of these actors at these stamps.
fn has_steps<V: Copy>(run: &Run<V>, steps: &[(u32, u64)]) {
    for (i, step) in steps.iter().enumerate() {
        assert_eq!(step_of(run, i), Some(*step));
    }
}

const SEND: ChanCall<u64> = ChanCall::B(BCall::Send(0, 1));

const SENT: ChanReply<u64> = ChanReply::B(BReply::Sent(1));

const STORE: ChanCall<u64> = ChanCall::W(WCall::Send(0, 6));

const STORED: ChanReply<u64> = ChanReply::W(WReply::Stored);

const RECEIVE: ChanCall<u64> = ChanCall::B(BCall::TryRecv(1));

const WAIT: ChanCall<u64> = ChanCall::B(BCall::Recv(1));

const WAITS: ChanReply<u64> = ChanReply::B(BReply::Waits);

/// A received value, or another.
const ONE: ChanReply<u64> = ChanReply::B(BReply::Value(1));

const TWO: ChanReply<u64> = ChanReply::B(BReply::Value(2));

const LIMIT: Result<(), PushFault> = Err(PushFault::Limit);

const ORDER: Result<(), PushFault> = Err(PushFault::Order);

const REPLY: Result<(), PushFault> = Err(PushFault::Reply);

static PUSHES: [Push<u64>; 17] = [
    (0, 0, 0, SEND, SENT, ORDER),
    (64, 1, 0, SEND, SENT, LIMIT),
    (0, TOO_LATE, 0, SEND, SENT, LIMIT),
    (0, 1, 0, SEND, SENT, Ok(())),
    // The same stamp on a later channel, but by the same actor, and then by another.
    (0, 1, 1, STORE, STORED, ORDER),
    (1, 1, 1, STORE, STORED, Ok(())),
    // An earlier channel, and the same one.
    (2, 1, 0, SEND, SENT, ORDER),
    (2, 1, 1, STORE, STORED, ORDER),
    // Another number, another value, another kind, a call of the other kind, no such channel.
    (0, 2, 0, SEND, ChanReply::B(BReply::Sent(2)), REPLY),
    (0, 2, 0, RECEIVE, TWO, REPLY),
    (0, 2, 0, RECEIVE, ChanReply::W(WReply::Value(1)), REPLY),
    (0, 2, 0, STORE, ChanReply::NoChannel, REPLY),
    (0, 2, 2, SEND, ChanReply::NoChannel, REPLY),
    // The send that was refused is undone.
    (0, 2, 0, RECEIVE, ONE, Ok(())),
    (0, 3, 0, RECEIVE, ChanReply::B(BReply::Empty), Ok(())),
    (0, 4, 0, WAIT, WAITS, REPLY),
    (63, 1 << 62, 0, SEND, SENT, Ok(())),
];

/// The actors and stamps of the entries that are pushed.
static PUSHED: [(u32, u64); 5] = [(0, 1), (1, 1), (0, 2), (0, 3), (63, 1 << 62)];

#[test]
fn pushes_what_comes_next() {
    let mut draft = RunDraft::open(Global, &[Spec::Broadcast(2), Spec::Watch(5u64)]).unwrap();
    answers(&mut draft, &PUSHES);
    let run = draft.finish();
    assert_eq!(counts_of(&run), (2, PUSHED.len()));
    has_steps(&run, &PUSHED);
}

/// Pushes a call and its reply `most` times on the first of two channels, and then once on each. Returns the results.
fn filled<V: Payload>(
    draft: &mut RunDraft<V>,
    call: ChanCall<V>,
    reply: ChanReply<V>,
    most: u64,
) -> (bool, [Result<(), PushFault>; 2]) {
    let mut all = true;
    for stamp in 1..=most {
        all = all && push(draft, 0, stamp, 0, call, reply).is_ok();
    }
    let next = most.saturating_add(1);
    let last = [
        push(draft, 0, next, 0, call, reply),
        push(draft, 0, next, 1, call, reply),
    ];
    (all, last)
}

#[test]
fn a_channel_is_full() {
    let mut draft =
        RunDraft::<u64>::open(Global, &[Spec::Broadcast(1), Spec::Broadcast(1)]).unwrap();
    let count = ChanCall::B(BCall::ReceiverCount(0));
    let one = ChanReply::B(BReply::Count(1));
    let answers = filled(&mut draft, count, one, 1_048_576);
    let run = draft.finish();
    let counts = counts_of(&run);
    let found = walked(&run, &ENDS);
    assert_eq!(answers, (true, [LIMIT, Ok(())]));
    assert_eq!(counts, (2, 1_048_577));
    let (_, _, [(end, _), (start, _), _, _]) = found;
    assert_eq!([end, start], [Ok(1_048_577), Ok(0)]);
}

/// Returns the fault of a draft that isn't opened.
fn fault_of<V: Payload>(specs: &[Spec<V>]) -> Option<OpenFault> {
    RunDraft::open(Global, specs).err()
}

#[test]
fn opens_as_a_world_does() {
    let none: [Spec<u64>; 0] = [];
    let bad = [Spec::Watch(1), Spec::Broadcast(0), Spec::Broadcast(0)];
    let faults = [fault_of(&none), fault_of(&bad)];
    let told = [Some(OpenFault::NoChannels), Some(OpenFault::BadCapacity(1))];
    assert_eq!(faults, told);
}
