//! What a long run leaves in memory, by counting what is allocated. A program of its own, since the
//! allocator counts for all threads.

#[path = "support/allocated.rs"]
mod allocated;

use allocated::allocated;
use std::future::Future;
use std::pin::pin;
use std::sync::Mutex;
use std::task::{Context, Waker};
use yovanelum::{Recorder, block_on, broadcast, named};

/// How often each thing is done before the memory is looked at for the first time.
const FIRST: u32 = 2_000;

/// How often it is done in all.
const ALL: u32 = 8_000;

/// Does a thing again and again, and checks that the memory grows by less than 8 bytes each time.
/// What stayed would take more.
fn stays_flat(what: &str, mut thing: impl FnMut(u32)) {
    (0..FIRST).for_each(&mut thing);
    let before = allocated();
    (FIRST..ALL).for_each(&mut thing);
    let more = allocated().saturating_sub(before);
    let most = 8 * (ALL - FIRST) as usize;
    assert!(more < most, "{what}: {more} bytes more");
}

/// Begins to receive, and gives up. That leaves no entry.
fn wait_once(rx: &mut broadcast::Receiver<u32>) {
    let mut context = Context::from_waker(Waker::noop());
    assert!(pin!(rx.recv()).as_mut().poll(&mut context).is_pending());
}

/// Makes a channel on which as many values were sent as the core keeps room for handles: one for
/// each, up to 65,536.
fn channel_with_room() -> (broadcast::Sender<u32>, broadcast::Receiver<u32>) {
    let (tx, rx) = broadcast::channel(16);
    (0..66_000).for_each(|value| assert_eq!(tx.send(value).unwrap(), 1));
    (tx, rx)
}

/// Makes a channel, and sends a value over it.
fn use_channel(value: u32) {
    let (tx, mut rx) = broadcast::channel(16);
    tx.send(value).unwrap();
    assert_eq!(rx.try_recv(), Ok(value));
}

/// The tests run in turn.
static TURN: Mutex<()> = Mutex::new(());

#[test]
fn names_go_with_what_they_name() {
    let _turn = TURN.lock();
    let recorder = Recorder::new();
    let entered = recorder.enter();
    let (_tx, mut rx) = broadcast::channel::<u32>(16);
    stays_flat("named tasks that leave no entry", |i| {
        block_on(named(&format!("connection {i}"), async {
            wait_once(&mut rx)
        }));
    });
    stays_flat("channels of named tasks", |i| {
        block_on(named(&format!("request {i}"), async { use_channel(i) }));
    });
    let alive: Vec<_> = (0..64).map(|_| broadcast::channel::<u32>(1)).collect();
    let (tx, _rx) = channel_with_room();
    recorder.show(&tx, |i| format!("the value {i}, which nobody records"));
    stays_flat("texts on a channel that is not in the run", |i| {
        assert_eq!(tx.send(i).unwrap(), 1);
    });
    stays_flat(
        "names of receivers of a channel that is not in the run",
        |i| {
            recorder.name(&tx.subscribe(), &format!("connection {i}"));
        },
    );
    drop((alive, entered));
    let (tx, _rx) = channel_with_room();
    stays_flat("tasks that send on a channel that nobody records", |i| {
        let task = named(&format!("connection {i}"), async { tx.send(i).unwrap() });
        assert_eq!(block_on(task), 1);
    });
    stays_flat("names of receivers of a channel that nobody records", |i| {
        Recorder::off().name(&tx.subscribe(), &format!("connection {i}"));
    });
    let _alive: Vec<_> = (0..100).map(|_| tx.subscribe()).collect();
    stays_flat("receivers of a channel that nobody records", |_| {
        (0..100).for_each(|_| drop(tx.subscribe()));
    });
    stays_flat("channels that nobody records", use_channel);
}

#[test]
fn a_flight_recorder_keeps_no_more_than_its_last_calls() {
    let _turn = TURN.lock();
    let recorder = Recorder::flight(100);
    let _entered = recorder.enter();
    let (tx, mut rx) = broadcast::channel(16);
    recorder.show(&tx, |value| format!("the value {value}"));
    // As many as the core keeps room for handles.
    (0..66_000).for_each(|value| assert_eq!(tx.send(value).unwrap(), 1));
    stays_flat("sends, receives and lags", |i| {
        (0..20).for_each(|_| drop(tx.send(i)));
        while let Err(broadcast::error::TryRecvError::Lagged(_)) | Ok(_) = rx.try_recv() {}
    });
    stays_flat("named tasks", |i| {
        let task = named(&format!("request {i}"), async { tx.send(i).unwrap() });
        block_on(task);
    });
    while let Err(broadcast::error::TryRecvError::Lagged(_)) | Ok(_) = rx.try_recv() {}
    stays_flat("calls that wait and are given up", |_| wait_once(&mut rx));
}
