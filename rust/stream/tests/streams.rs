//! Streams as they wait, and what they leave in a journal. `rust/tokio` compares their items with
//! those of tokio-stream.

use futures_core::Stream;
use std::pin::Pin;
use std::sync::atomic::{AtomicU64, Ordering};
use std::sync::{Arc, Mutex};
use std::task::{Context, Poll, Wake, Waker};
use yovanelum::{Recorder, broadcast, watch};
use yovanelum_stream::wrappers::{BroadcastStream, WatchStream};

/// Polls a stream once.
fn poll<S: Stream + Unpin>(stream: &mut S, waker: &Waker) -> Poll<Option<S::Item>> {
    Pin::new(stream).poll_next(&mut Context::from_waker(waker))
}

#[derive(Default)]
struct Woken(AtomicU64);

impl Wake for Woken {
    fn wake(self: Arc<Self>) {
        self.0.fetch_add(1, Ordering::Relaxed);
    }
}

#[test]
fn a_stream_that_is_dropped_is_no_longer_woken_and_holds_no_waker() {
    let woken = Arc::new(Woken::default());
    let waker = Waker::from(woken.clone());
    let (bus, listener) = broadcast::channel::<u32>(4);
    let mut events = BroadcastStream::new(listener);
    let (state, rx) = watch::channel(0);
    let mut states = WatchStream::from_changes(rx);
    for _ in 0..3 {
        assert!(poll(&mut events, &waker).is_pending());
        assert!(poll(&mut states, &waker).is_pending());
    }
    // The test, its waker and a clone in each channel.
    assert_eq!(Arc::strong_count(&woken), 4);
    drop((events, states));
    assert_eq!(Arc::strong_count(&woken), 2);
    assert!(bus.send(1).is_err());
    state.send_replace(1);
    assert_eq!(woken.0.load(Ordering::Relaxed), 0);
}

/// Appends its number when it is woken.
struct Numbered(usize, Arc<Mutex<Vec<usize>>>);

impl Wake for Numbered {
    fn wake(self: Arc<Self>) {
        self.1.lock().unwrap().push(self.0);
    }
}

#[test]
fn streams_are_woken_in_the_order_of_waiting_also_when_they_are_polled_again() {
    let order = Arc::new(Mutex::default());
    let waker = |number| Waker::from(Arc::new(Numbered(number, order.clone())));
    let (bus, first) = broadcast::channel(4);
    let listeners = [first, bus.subscribe(), bus.subscribe()];
    let mut streams = listeners.map(BroadcastStream::new);
    for number in [0, 1, 2, 1, 0] {
        assert!(poll(&mut streams[number], &waker(number)).is_pending());
    }
    bus.send("started").unwrap();
    assert_eq!(*order.lock().unwrap(), [0, 1, 2]);
    for stream in &mut streams {
        assert_eq!(
            poll(stream, Waker::noop()),
            Poll::Ready(Some(Ok("started")))
        );
    }
}

#[test]
fn each_item_is_recorded_and_no_poll_without_one() {
    let recorder = Recorder::new();
    let _entered = recorder.enter();
    let (bus, listener) = broadcast::channel(4);
    let mut events = BroadcastStream::new(listener);
    assert!(poll(&mut events, Waker::noop()).is_pending());
    bus.send(7).unwrap();
    assert!(poll(&mut events, Waker::noop()).is_ready());
    drop(bus);
    assert_eq!(poll(&mut events, Waker::noop()), Poll::Ready(None));
    let journal = recorder.journal().unwrap();
    // Without their stamps.
    let calls: Vec<_> = journal
        .lines()
        .filter(|line| line.contains(" = "))
        .filter_map(|line| line.split_once(' '))
        .map(|(_, call)| call)
        .collect();
    let wanted = [
        "0 0 send 0 0 = sent 1",
        "0 0 recv 1 = value 0",
        "0 0 drop 0 = dropped",
        "0 0 recv 1 = closed",
    ];
    assert_eq!(calls, wanted);
}
