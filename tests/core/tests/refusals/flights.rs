//! Channels with their last calls, and windows of these: what is refused memory leaves a flight and its kept calls as they were.

use crate::met::{TRIES, made, refused, say, tried};
use crate::refusing::paused;
use proved::Global;
use proved::rw_law::NoMemory;
use proved::rw_recording::{
    BCall, ChanCall, Flight, Kept, Lead, OpenFault, Recording, Spec, TakeFault, WCall, Window,
    WindowFault,
};
use std::fmt::Debug;

/// How many calls make a chunk full: more than are made, since a refused copy of the channel would leave one chunk more.
const CHUNK: usize = 16;

/// What is called of a broadcast: receiver 1 lags, and is asked, and receiver 2 lags and isn't.
static SENDS: [ChanCall<u64>; 9] = [
    ChanCall::B(BCall::Subscribe(0)),
    ChanCall::B(BCall::Send(0, 1)),
    ChanCall::B(BCall::CloneSender(0)),
    ChanCall::B(BCall::DropHandle(0)),
    ChanCall::B(BCall::Send(3, 2)),
    ChanCall::B(BCall::Send(3, 3)),
    ChanCall::B(BCall::Send(3, 4)),
    ChanCall::B(BCall::TryRecv(1)),
    ChanCall::B(BCall::Downgrade(3)),
];

/// What is called of a watch.
static CHANGES: [ChanCall<u64>; 7] = [
    ChanCall::W(WCall::Send(0, 6)),
    ChanCall::W(WCall::Subscribe(0)),
    ChanCall::W(WCall::CloneSender(0)),
    ChanCall::W(WCall::DropHandle(0)),
    ChanCall::W(WCall::Update(1)),
    ChanCall::W(WCall::Send(3, 7)),
    ChanCall::W(WCall::CloneReceiver(2)),
];

/// Asserts that a fault is this one, which says that memory was refused.
fn no_memory<F: Debug + PartialEq>(fault: F, wanted: F) -> NoMemory {
    assert_eq!(fault, wanted);
    NoMemory
}

fn open(spec: Spec<u64>) -> Result<Flight, NoMemory> {
    made(|| {
        Flight::open(Global, spec, CHUNK).map_err(|fault| no_memory(fault, OpenFault::NoMemory))
    })
}

fn call(flight: &mut Flight, call: ChanCall<u64>) {
    for _ in 0..TRIES {
        let before = (flight.len(), flight.dropped());
        match flight.call(5, 0, call) {
            Ok(reply) => return say!("  {reply:?}"),
            Err(TakeFault::NoMemory) => refused((flight.len(), flight.dropped()) == before),
            Err(fault) => panic!("{fault}"),
        }
    }
}

/// The last three calls, without requests that are refused.
fn last_calls(flight: &Flight) -> Kept {
    paused(|| {
        let mut kept = flight.kept(Global).unwrap();
        kept.skip(Global, kept.len() - 3).unwrap();
        kept
    })
}

/// Copies the kept calls, and forgets some.
fn play_kept(flight: &Flight) {
    let kept = made(|| flight.kept(Global));
    let Ok(mut kept) = kept else { return };
    say!("kept: {} of {}", kept.len(), kept.len() + kept.dropped());
    for skips in [false, true] {
        let done = tried(
            &mut kept,
            |kept| (kept.len(), kept.dropped(), kept.first_stamp()),
            |kept| {
                if skips {
                    kept.skip(Global, 1)
                } else {
                    kept.settle(Global, 0)
                }
            },
        );
        if done.is_ok() {
            say!("  {:?}", (kept.len(), kept.dropped(), kept.first_stamp()));
        }
    }
    paused(|| drop(kept))
}

fn lead_of(kept: Kept) -> Result<Lead, NoMemory> {
    kept.lead(Global, 63, 0)
        .map_err(|fault| no_memory(fault, WindowFault::NoMemory))
}

fn window_of(lead: Lead) -> Result<Window, NoMemory> {
    let last = lead.last_stamp();
    lead.play(last)
        .map_err(|fault| no_memory(fault, WindowFault::NoMemory))
}

/// Makes a window of the kept calls.
fn play_window(flight: &Flight) {
    let lead = made(|| lead_of(last_calls(flight)));
    let Ok(lead) = lead else { return };
    say!("lead: {} entries", lead.len());
    paused(|| drop(lead));
    let whole = || paused(|| lead_of(last_calls(flight)).unwrap());
    let window = made(|| window_of(whole()));
    let Ok(window) = window else { return };
    let numbers = [0, 1, 2, 3].map(|handle| window.number(handle));
    say!("window: {} entries, {numbers:?}", window.recording().len());
    paused(|| drop(window))
}

/// Numbers the handles anew.
fn play_renumbering(flight: &mut Flight) {
    let numbers = tried(
        flight,
        |flight| (flight.len(), flight.dropped(), flight.made()),
        |flight| flight.renumber(Global),
    );
    if let Ok(numbers) = numbers {
        say!("renumbered: {:?}", numbers.as_deref());
        paused(|| drop(numbers));
    }
}

/// Goes on from a recording.
fn play_going_on(spec: Spec<u64>, calls: &[ChanCall<u64>]) {
    let recording = paused(|| {
        let mut recording = Recording::open(Global, spec).unwrap();
        for call in calls {
            recording.call(5, 0, *call).unwrap();
        }
        recording
    });
    let flight = made(|| {
        Flight::of(Global, &recording, CHUNK).map_err(|fault| no_memory(fault, TakeFault::NoMemory))
    });
    if let Ok(flight) = &flight {
        say!("gone on: {} of {}", flight.len(), recording.len());
    }
    paused(|| drop((recording, flight)))
}

/// Plays all of these.
pub fn play() {
    let channels: [(Spec<u64>, &[ChanCall<u64>]); 2] =
        [(Spec::Broadcast(2), &SENDS), (Spec::Watch(5), &CHANGES)];
    for (spec, calls) in channels {
        let Ok(mut flight) = open(spec) else { return };
        for each in calls {
            call(&mut flight, *each);
        }
        play_kept(&flight);
        play_window(&flight);
        play_renumbering(&mut flight);
        paused(|| drop(flight));
        play_going_on(spec, calls);
    }
}
