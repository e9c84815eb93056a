//! A replay of a run in which a channel creates more senders and receivers than a journal names.
//! The test runs this program again, as a process.

mod support;

use std::sync::mpsc;
use std::thread::{self, JoinHandle};
use std::time::Duration;
use support::parts::{Folder, files, is_part, started};
use yovanelum::{Recorder, broadcast, watch};

/// How many handles a journal names.
const MOST: usize = 65_536;

/// The variable that says whether Ann waits until Bob has bid. Otherwise Bob is slow.
const ANN_WAITS: &str = "YOVANELUM_TEST_ANN_WAITS";

/// How often the run is replayed: three times, or as many as the variable `YOVANELUM_RUNS` says.
fn replays() -> usize {
    match std::env::var("YOVANELUM_RUNS") {
        Ok(wanted) => wanted.parse().unwrap(),
        Err(_) => 3,
    }
}

/// Bids on a thread, once this was done there.
fn bid(
    bids: &broadcast::Sender<u32>,
    name: &str,
    number: u32,
    before: impl FnOnce() + Send + 'static,
) -> JoinHandle<()> {
    let (bids, thread) = (bids.clone(), thread::Builder::new().name(name.to_string()));
    let run = move || {
        before();
        bids.send(number).unwrap();
    };
    thread.spawn(run).unwrap()
}

/// Two threads bid, and the test fails where Bob is the first. Then the channel creates more
/// handles than a journal names, and another one is still recorded.
fn ann_is_the_first() {
    let recorder = Recorder::for_test("ann_is_the_first");
    let (bids, mut auction) = broadcast::channel(4);
    recorder.name(&bids, "bids").name(&auction, "auction");
    let (price, _shown) = watch::channel(0);
    let ann_waits = std::env::var_os(ANN_WAITS).is_some();
    let (has_bid, bob) = mpsc::channel();
    let ann = bid(&bids, "Ann", 1, move || {
        if ann_waits {
            bob.recv().unwrap();
        }
    });
    let bob = bid(&bids, "Bob", 2, move || {
        if !ann_waits {
            thread::sleep(Duration::from_millis(30));
        }
    });
    bob.join().unwrap();
    let _ = has_bid.send(());
    ann.join().unwrap();
    (0..MOST + 3_000).for_each(|_| drop(bids.subscribe()));
    let _late = bids.subscribe();
    price.send(2).unwrap();
    assert_eq!(auction.try_recv(), Ok(1));
}

#[test]
fn a_run_whose_recording_ended_at_its_handles_is_replayed() {
    if is_part() {
        return ann_is_the_first();
    }
    let test = "a_run_whose_recording_ended_at_its_handles_is_replayed";
    let folder = Folder::new(test);
    let recorded = started(test, &folder.0)
        .env(ANN_WAITS, "")
        .output()
        .unwrap();
    assert!(!recorded.status.success());
    let journal = files(&folder.0).join("ann_is_the_first.journal");
    // Two clones and their drops, two bids, and both calls of each further handle that the journal
    // names. Of the price its send, and the drops of its sender and its receiver.
    let calls = 6 + 2 * (MOST - 4) + 3;
    let wanted = format!(
        "ann_is_the_first.journal: all {calls} calls in the recorded order; the same failure"
    );
    for time in 1..=replays() {
        let mut replay = started(test, &folder.0);
        replay.env("YOVANELUM_REPLAY", &journal).arg("--nocapture");
        let said = String::from_utf8(replay.output().unwrap().stderr).unwrap();
        assert!(said.contains(&wanted), "replay {time}: {wanted} in {said}");
    }
}
