//! How long a step takes, in nanoseconds: of a machine alone, of a book that records its calls, and of a navigator that redoes
//! and undoes them; and how much memory handles, retained values and channels take: `cargo bench --bench steps -- STEPS`.
//!
//! `workloads.rs` says what is done, `measure.rs` what is timed. As a test it makes 1,000 steps, and the last reply of each workload
//! is compared.

mod measure;
mod memory;
mod workloads;

use measure::{Measured, measure};
use memory::report_memory;
use proved::Global;
use proved::rw_broadcast::{BReply, Broadcast};
use proved::rw_law::Entry;
use proved::rw_watch::{WReply, Watch};
use proved::rw_world::{ChanCall, ChanReply, RowCall, Spec, World, open};
use std::fmt::Debug;
use std::time::Duration;
use support::asked;
use workloads::{BroadcastWork, MOST_STEPS, WatchWork, in_world};

/// How many steps the test makes.
const FEW: u64 = 1_000;

/// Capacities of broadcast channels, the work on each, and the last reply of a few steps.
static BROADCASTS: [(u32, BroadcastWork, BReply<u64>); 6] = [
    (1_024, BroadcastWork::SendAndReceive(1), BReply::Value(998)),
    (1_024, BroadcastWork::SendAndReceive(8), BReply::Value(997)),
    (2, BroadcastWork::Send, BReply::Sent(1)),
    (65_536, BroadcastWork::Send, BReply::Sent(1)),
    (1_024, BroadcastWork::Receive, BReply::Empty),
    (1_024, BroadcastWork::SubscribeAndDrop, BReply::Dropped),
];

/// The work on watch channels, and the last reply of a few steps.
static WATCHES: [(WatchWork, WReply<u64>); 3] = [
    (WatchWork::SendAndUpdate(1), WReply::Value(998)),
    (WatchWork::SendAndUpdate(8), WReply::Value(997)),
    (WatchWork::HasChanged, WReply::Flag(false)),
];

/// Returns the nanoseconds of each step, if this many took this long.
fn per_step(all: Duration, steps: u64) -> f64 {
    all.as_secs_f64() * 1e9 / steps as f64
}

/// Prints the times of a step. Both walks have made each step, and the last reply of a few is as it has to be.
fn report<R: Debug + PartialEq>(name: &str, measured: &Measured<R>, last: R) {
    let steps = measured.steps;
    assert_eq!(measured.turns, 2 * steps, "{name}");
    if steps == FEW {
        assert_eq!(measured.last, Some(last), "{name}");
    }
    let Measured {
        apply,
        take,
        redo,
        undo,
        ..
    } = measured;
    let [apply, take, redo, undo] = [apply, take, redo, undo].map(|all| per_step(*all, steps));
    println!("{apply:>7.1} {take:>7.1} {redo:>7.1} {undo:>7.1}  {name}");
}

/// Measures calls to a world of one channel.
fn world(spec: Spec<u64>, calls: &[RowCall<ChanCall<u64>>], name: &str, last: ChanReply<u64>) {
    let measured = measure(|| open(Global, &[spec]).unwrap(), calls);
    report(&format!("world, {name}"), &measured, last);
}

/// Measures work on a broadcast channel of this capacity, alone and in a world.
fn broadcast(capacity: u32, work: BroadcastWork, last: BReply<u64>, asked: u64) {
    let calls = work.calls(work.steps(asked));
    let name = format!("broadcast of {capacity}, {work}");
    let measured = measure(|| Broadcast::open(Global, capacity).unwrap(), &calls);
    report(&name, &measured, last);
    let calls = in_world(&calls, ChanCall::B);
    world(Spec::Broadcast(capacity), &calls, &name, ChanReply::B(last));
}

/// Measures work on a watch channel, alone and in a world.
fn watch(work: WatchWork, last: WReply<u64>, asked: u64) {
    let calls = work.calls(asked.min(MOST_STEPS));
    let name = format!("watch, {work}");
    let measured = measure(|| Watch::open(Global, 0).unwrap(), &calls);
    report(&name, &measured, last);
    let calls = in_world(&calls, ChanCall::W);
    world(Spec::Watch(0), &calls, &name, ChanReply::W(last));
}

fn main() {
    let asked = asked(FEW, 100_000);
    if asked != FEW {
        report_memory();
    }
    let entry = size_of::<Entry<World<u64>>>();
    assert_eq!(entry, 96);
    println!("bytes of an entry: {entry}");
    println!("nanoseconds a step:\n  apply    take    redo    undo");
    for (capacity, work, last) in &BROADCASTS {
        broadcast(*capacity, *work, *last, asked);
    }
    for (work, last) in &WATCHES {
        watch(*work, *last, asked);
    }
}
