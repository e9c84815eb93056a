//! Calls that wait and whose futures are forgotten: they are no longer listed once their receiver
//! goes on.

use std::future::Future;
use std::mem;
use std::sync::Arc;
use std::sync::atomic::{AtomicUsize, Ordering};
use std::task::{Context, Wake, Waker};
use yovanelum::{ChannelSnapshot, Recorder, broadcast, watch};

struct Count(AtomicUsize);

impl Wake for Count {
    fn wake(self: Arc<Self>) {
        self.0.fetch_add(1, Ordering::SeqCst);
    }
}

/// Polls a future once, which waits, and forgets it. Returns the count of its wakes.
fn poll_and_forget(future: impl Future) -> Arc<Count> {
    let count = Arc::new(Count(AtomicUsize::new(0)));
    let waker = Waker::from(count.clone());
    let mut future = Box::pin(future);
    let polled = future.as_mut().poll(&mut Context::from_waker(&waker));
    assert!(polled.is_pending());
    mem::forget(future);
    count
}

#[test]
fn a_receive_that_is_forgotten_waits_until_it_is_woken_and_is_gone_once_its_receiver_goes_on() {
    // Also where nothing is recorded.
    let (tx, mut rx) = broadcast::channel::<u32>(4);
    let count = poll_and_forget(rx.recv());
    let said = || {
        let channel = ChannelSnapshot::of(&tx);
        let receiver = &channel.receivers()[0];
        (receiver.waits_in(), receiver.woken_in())
    };
    assert_eq!(said(), (Some("recv"), None));
    assert!(rx.try_recv().is_err());
    assert_eq!(said(), (Some("recv"), None));
    tx.send(1).unwrap();
    assert_eq!(count.0.load(Ordering::SeqCst), 1);
    // It was woken, and nobody polls it any more.
    assert_eq!(said(), (None, Some("recv")));
    assert_eq!(rx.try_recv(), Ok(1));
    assert_eq!(said(), (None, None));
    // It is the only one left that has its waker.
    assert_eq!(Arc::strong_count(&count), 1);
}

#[test]
fn a_call_that_is_forgotten_waits_no_longer_than_its_receiver_lives() {
    let recorder = Recorder::new();
    let _entered = recorder.enter();
    let (tx, mut rx) = broadcast::channel::<u32>(4);
    let (state, mut state_rx) = watch::channel(0);
    let counts = [
        poll_and_forget(rx.recv()),
        poll_and_forget(state_rx.changed()),
    ];
    assert_eq!(recorder.waiting().len(), 2);
    drop((rx, state_rx));
    assert_eq!(recorder.waiting().len(), 0);
    assert!(counts.iter().all(|it| Arc::strong_count(it) == 1));
    assert!(tx.send(1).is_err() && state.send(1).is_err());
    assert!(counts.iter().all(|it| it.0.load(Ordering::SeqCst) == 0));
}

#[test]
fn the_next_call_that_waits_takes_the_place_of_one_that_is_forgotten() {
    let recorder = Recorder::new();
    let _entered = recorder.enter();
    let (tx, mut rx) = broadcast::channel::<u32>(4);
    let forgotten = poll_and_forget(rx.recv());
    let next = poll_and_forget(rx.recv());
    assert_eq!(recorder.waiting().len(), 1);
    tx.send(1).unwrap();
    let wakes = [forgotten, next].map(|it| it.0.load(Ordering::SeqCst));
    assert_eq!(wakes, [0, 1]);
}

#[test]
fn a_receiver_that_says_it_has_not_seen_the_value_waits_no_longer() {
    let (state, mut rx) = watch::channel(0);
    let count = poll_and_forget(rx.changed());
    let waits_in = || ChannelSnapshot::of(&state).receivers()[0].waits_in();
    assert_eq!(waits_in(), Some("changed"));
    rx.mark_changed();
    assert_eq!(waits_in(), None);
    state.send_replace(1);
    assert_eq!(count.0.load(Ordering::SeqCst), 0);
}
