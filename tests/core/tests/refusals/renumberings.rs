//! New numbers for the live handles of channels, and of one whose recording has ended.

use crate::met::{say, tried};
use crate::refusing::paused;
use proved::rw_broadcast::BCall;
use proved::rw_handles::Kind;
use proved::rw_law::{NoMemory, Reversible};
use proved::rw_recording::Recording;
use proved::rw_watch::WCall;
use proved::rw_world::{Chan, ChanCall, Spec, open_channel};
use proved::{Global, Vec};

/// What is called before: two handles are made, and two dropped. Receiver 1 and sender 3 are left.
static ON_BROADCAST: [ChanCall<u64>; 4] = [
    ChanCall::B(BCall::Subscribe(0)),
    ChanCall::B(BCall::CloneSender(0)),
    ChanCall::B(BCall::DropHandle(0)),
    ChanCall::B(BCall::DropHandle(2)),
];

static ON_WATCH: [ChanCall<u64>; 4] = [
    ChanCall::W(WCall::Subscribe(0)),
    ChanCall::W(WCall::CloneSender(0)),
    ChanCall::W(WCall::DropHandle(0)),
    ChanCall::W(WCall::DropHandle(2)),
];

/// Opens a channel and makes these calls, whose memory isn't refused.
fn called(spec: Spec<u64>, calls: &[ChanCall<u64>]) -> Chan<u64> {
    paused(|| {
        let mut channel = open_channel(Global, &spec).unwrap();
        channel.ready(calls.len() as u64).unwrap();
        for call in calls {
            channel.apply(call);
        }
        channel
    })
}

/// The kind of each of the first five handles, and how many were made.
fn handles(channel: &Chan<u64>) -> ([Option<Kind>; 5], u32) {
    let kinds = [0, 1, 2, 3, 4].map(|handle| match channel {
        Chan::Broadcast(machine) => machine.kind(handle),
        Chan::Watch(machine) => machine.kind(handle),
    });
    (kinds, channel.made())
}

fn renumber(channel: &mut Chan<u64>) -> Result<Vec<u32>, NoMemory> {
    tried(
        channel,
        |channel| handles(channel),
        |channel| channel.renumber(Global),
    )
}

/// Renumbers a channel after these calls.
fn play_channel(spec: Spec<u64>, calls: &[ChanCall<u64>]) {
    let mut channel = called(spec, calls);
    let numbers = renumber(&mut channel);
    let (kinds, made) = handles(&channel);
    say!(
        "{spec:?}: {numbers:?}, made {made}, {:?} {:?}",
        kinds[0],
        kinds[1]
    );
    paused(|| drop((channel, numbers)))
}

/// What is asked of a recording: whether calls are recorded, and how many entries and senders there are.
fn asked(recording: &Recording) -> (bool, u64, u64) {
    (
        recording.is_recorded(),
        recording.len(),
        recording.alive(Kind::Sender),
    )
}

fn renumber_recording(recording: &mut Recording) -> Result<Option<Vec<u32>>, NoMemory> {
    tried(
        recording,
        |recording| asked(recording),
        |recording| recording.renumber(Global),
    )
}

/// Renumbers a channel while its calls are recorded, and then again.
fn play_recording() {
    let mut recording = paused(|| {
        let mut recording = Recording::open(Global, Spec::Broadcast(4)).unwrap();
        for call in &ON_BROADCAST {
            recording.call(0, 0, *call).unwrap();
        }
        recording
    });
    let recorded = renumber_recording(&mut recording);
    recording.end();
    let ended = renumber_recording(&mut recording);
    say!(
        "a recording: {recorded:?}, then {ended:?}, {} entries",
        recording.len()
    );
    paused(|| drop((recording, recorded, ended)))
}

/// Plays all of these.
pub fn play() {
    play_channel(Spec::Broadcast(4), &ON_BROADCAST);
    play_channel(Spec::Watch(5), &ON_WATCH);
    play_recording()
}
