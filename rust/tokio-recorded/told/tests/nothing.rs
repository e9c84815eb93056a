//! Tests that record nothing. Above each stands why, and the line that says so, as in `causes.rs`.

use std::sync::{LazyLock, mpsc};
use tokio::sync::{broadcast, watch};
use yovanelum::Recorder;

// `let _` drops the recorder at once.
// | yovanelum: a_recorder_is_dropped_at_once recorded nothing: its recorder was dropped where it was created, at @at once: `let _ = ..` drops it at once, and `let _recorder = ..` keeps it
#[tokio::test]
async fn a_recorder_is_dropped_at_once() {
    let _ = Recorder::for_test("a_recorder_is_dropped_at_once"); // @at once
    let (orders, mut audit) = broadcast::channel(2);
    orders.send(71).unwrap();
    assert_eq!(audit.recv().await, Ok(72));
}

/// A bus that whoever comes first creates.
static BUS: LazyLock<broadcast::Sender<u32>> = LazyLock::new(|| broadcast::channel(4).0);

/// Uses the bus in a test of its own, on a thread as a harness has one.
fn use_bus(name: &'static str, wanted: u32) -> bool {
    let test = std::thread::Builder::new()
        .name(name.into())
        .spawn(move || {
            let _recorder = Recorder::for_test(name);
            let mut audit = BUS.subscribe();
            BUS.send(71).unwrap();
            assert_eq!(audit.try_recv(), Ok(wanted));
        });
    test.unwrap().join().is_ok()
}

// The test before created the static bus, so its channel belongs to the recorder of that.
// | yovanelum: a_later_test recorded nothing: the channel that it used belongs to the recorder of an_earlier_test, which created it: a static is created once in a process
#[test]
fn a_static_belongs_to_an_earlier_test() {
    assert!(use_bus("an_earlier_test", 71));
    assert!(use_bus("a_later_test", 72));
}

// A thread that the test spawns doesn't follow it.
// | yovanelum: a_thread_creates_the_channel recorded nothing: a channel was created at @elsewhere, and belongs to no recorder: .*
#[test]
fn a_thread_creates_the_channel() {
    let _recorder = Recorder::for_test("a_thread_creates_the_channel");
    let made = std::thread::spawn(|| watch::channel(0)); // @elsewhere
    let (state, reader) = made.join().unwrap();
    state.send(1).unwrap();
    assert_eq!(*reader.borrow(), 2);
}

// Another test creates one, while this one creates none.
// | yovanelum: another_test_creates_a_channel recorded nothing: the test created no channel that belongs to its recorder
#[test]
fn another_test_creates_a_channel() {
    let (begun, begins) = mpsc::channel();
    let (created, creates) = mpsc::channel();
    let another = std::thread::Builder::new()
        .name("tests::another".into())
        .spawn(move || {
            begins.recv().unwrap();
            created.send(watch::channel(0)).unwrap();
        });
    let _recorder = Recorder::for_test("another_test_creates_a_channel");
    begun.send(()).unwrap();
    let (_state, _reader) = creates.recv().unwrap();
    another.unwrap().join().unwrap();
    assert_eq!(71, 72, "the sum is wrong");
}
