//! Openings of worlds, and steps of a world of both kinds.

use proved::Global;
use proved::rw_broadcast::{BCall, BReply};
use proved::rw_law::Reversible;
use proved::rw_watch::{WCall, WReply};
use proved::rw_world::{Chan, ChanCall, ChanReply, OpenFault, RowCall, Spec, World, open};
use std::fmt::Debug;

/// Makes a call, undoes it and makes it again, on a machine that weighs less than a hundred. Returns both replies.
fn made_twice<M: Reversible>(machine: &mut M, call: &M::Call) -> (M::Reply, M::Reply) {
    if machine.weight() >= 100 {
        panic!("too heavy");
    }
    machine.ready(1).unwrap();
    let (first, patch) = machine.apply(call);
    machine.undo(call, &patch);
    let (second, _) = machine.apply(call);
    (first, second)
}

/// Returns how many channels a world of these specs has, or why it isn't opened.
fn opened<V: Copy>(specs: &[Spec<V>]) -> Result<usize, OpenFault> {
    Ok(open(Global, specs)?.len())
}

static MANY: [Spec<u64>; 65] = [Spec::Watch(1); 65];

static BAD: [Spec<u64>; 3] = [Spec::Watch(1), Spec::Broadcast(0), Spec::Broadcast(0)];

static WIDE: [Spec<u64>; 1] = [Spec::Broadcast(65_537)];

#[test]
fn refuses_specs() {
    let table = [
        (&MANY[..0], Err(OpenFault::NoChannels)),
        (&MANY[..], Err(OpenFault::TooManyChannels)),
        (&BAD[..], Err(OpenFault::BadCapacity(1))),
        (&WIDE[..], Err(OpenFault::BadCapacity(0))),
        (&MANY[..64], Ok(64)),
    ];
    for (specs, answer) in &table {
        assert_eq!(opened(specs), *answer, "case {}", specs.len() as u64);
    }
}

/// Asserts that a call on a machine gets this reply, twice.
fn replies_twice<M: Reversible>(machine: &mut M, call: &M::Call, reply: M::Reply)
where
    M::Reply: PartialEq + Debug,
{
    let found = made_twice(machine, call);
    assert_eq!(found, (reply, reply));
}

/// Asserts that calls on a world's channels get these replies, twice each.
fn replies<V: Copy + PartialEq + Debug>(
    world: &mut World<V>,
    table: &[(u32, ChanCall<V>, ChanReply<V>)],
) {
    for (channel, call, reply) in table {
        let (channel, call) = (*channel, *call);
        replies_twice(world, &RowCall { channel, call }, *reply);
    }
}

/// Returns the value of channel 1, if it is a watch.
fn value_of<V: Copy>(world: &World<V>) -> Option<V> {
    match world.channel(1) {
        Some(Chan::Watch(watch)) => Some(watch.value()),
        _ => None,
    }
}

/// Returns the value of channel 1 of a world that was opened from these specs, after these calls.
fn value_after<V: Copy + PartialEq + Debug>(
    specs: &[Spec<V>],
    table: &[(u32, ChanCall<V>, ChanReply<V>)],
) -> Option<V> {
    let mut world = open(Global, specs).unwrap();
    replies(&mut world, table);
    value_of(&world)
}

/// Channels, calls on them, and their replies.
static CALLS: [(u32, ChanCall<u64>, ChanReply<u64>); 6] = [
    (
        0,
        ChanCall::B(BCall::Send(0, 1)),
        ChanReply::B(BReply::Sent(1)),
    ),
    (
        1,
        ChanCall::W(WCall::Send(0, 6)),
        ChanReply::W(WReply::Stored),
    ),
    (
        0,
        ChanCall::B(BCall::TryRecv(1)),
        ChanReply::B(BReply::Value(1)),
    ),
    (
        1,
        ChanCall::W(WCall::Update(1)),
        ChanReply::W(WReply::Value(6)),
    ),
    (0, ChanCall::W(WCall::Update(1)), ChanReply::NoChannel),
    (2, ChanCall::W(WCall::Update(1)), ChanReply::NoChannel),
];

#[test]
fn calls_both_kinds() {
    let specs = [Spec::Broadcast(2), Spec::Watch(5)];
    let value = value_after(&specs, &CALLS);
    assert_eq!(value, Some(6));
}
