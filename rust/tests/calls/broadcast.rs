//! What tokio's documentation says about `sync::broadcast`.

use crate::support::poll_once;
use std::panic::{AssertUnwindSafe, RefUnwindSafe, UnwindSafe, catch_unwind};
use std::sync::Arc;
use std::sync::atomic::{AtomicUsize, Ordering};
use std::task::{Context, Poll, Wake, Waker};
use std::{pin::pin, thread};
use yovanelum::broadcast::{self, error::RecvError, error::SendError, error::TryRecvError};
use yovanelum::{Recorder, block_on};

#[test]
fn every_receiver_gets_every_value_in_order() {
    let (tx, mut first) = broadcast::channel(16);
    let mut second = tx.subscribe();
    assert_eq!(tx.send(10).unwrap(), 2);
    assert_eq!(tx.send(20).unwrap(), 2);
    for rx in [&mut first, &mut second] {
        assert_eq!(block_on(rx.recv()), Ok(10));
        assert_eq!(block_on(rx.recv()), Ok(20));
        assert_eq!(rx.try_recv(), Err(TryRecvError::Empty));
    }
}

#[test]
fn a_receiver_gets_what_is_sent_after_it_was_made() {
    let (tx, mut first) = broadcast::channel(4);
    tx.send(1).unwrap();
    let mut second = tx.subscribe();
    let mut third = first.resubscribe();
    tx.send(2).unwrap();
    assert_eq!(first.try_recv(), Ok(1));
    assert_eq!(
        [first.try_recv(), second.try_recv(), third.try_recv()],
        [Ok(2), Ok(2), Ok(2)]
    );
}

#[test]
fn a_receiver_that_lags_is_told_how_much_it_lost() {
    let (tx, mut rx) = broadcast::channel(2);
    for value in [10, 20, 30] {
        tx.send(value).unwrap();
    }
    assert_eq!(rx.len(), 3);
    assert_eq!(block_on(rx.recv()), Err(RecvError::Lagged(1)));
    assert_eq!(rx.len(), 2);
    assert_eq!(block_on(rx.recv()), Ok(20));
    assert_eq!(block_on(rx.recv()), Ok(30));
}

#[test]
fn the_capacity_is_rounded_up_to_a_power_of_two() {
    let (tx, mut rx) = broadcast::channel(3);
    for value in 0..5 {
        tx.send(value).unwrap();
    }
    assert_eq!(rx.try_recv(), Err(TryRecvError::Lagged(1)));
    assert_eq!(
        (0..4).map(|_| rx.try_recv().unwrap()).collect::<Vec<_>>(),
        [1, 2, 3, 4]
    );
}

#[test]
fn a_closed_channel_gives_its_values_first() {
    let (tx, mut rx) = broadcast::channel(2);
    let other = tx.clone();
    for value in 1..=3 {
        tx.send(value).unwrap();
    }
    drop(tx);
    assert!(!rx.is_closed());
    drop(other);
    assert!(rx.is_closed());
    assert_eq!(rx.try_recv(), Err(TryRecvError::Lagged(1)));
    assert_eq!(rx.try_recv(), Ok(2));
    assert_eq!(rx.blocking_recv(), Ok(3));
    assert_eq!(rx.try_recv(), Err(TryRecvError::Closed));
    assert_eq!(rx.blocking_recv(), Err(RecvError::Closed));
}

#[test]
fn a_send_without_receivers_gives_the_value_back() {
    let (tx, rx) = broadcast::channel(2);
    drop(rx);
    let SendError(value) = tx.send(String::from("x")).unwrap_err();
    assert_eq!(value, "x");
    let mut rx = tx.subscribe();
    assert_eq!(rx.try_recv(), Err(TryRecvError::Empty));
    assert_eq!(tx.send(value).unwrap(), 1);
    assert_eq!(rx.try_recv().unwrap(), "x");
}

#[test]
fn a_sender_made_alone_has_no_receiver() {
    let tx = broadcast::Sender::new(4);
    assert_eq!(tx.receiver_count(), 0);
    assert!(tx.send(1).is_err());
    let mut rx = tx.subscribe();
    assert_eq!(tx.send(2).unwrap(), 1);
    assert_eq!(rx.try_recv(), Ok(2));
}

#[test]
fn lengths_and_counts() {
    let (tx, mut rx) = broadcast::channel(4);
    assert!(tx.is_empty() && rx.is_empty());
    let slow = tx.subscribe();
    tx.send(1).unwrap();
    tx.send(2).unwrap();
    assert_eq!((tx.len(), rx.len(), slow.len()), (2, 2, 2));
    assert!(!tx.is_empty() && !rx.is_empty());
    rx.try_recv().unwrap();
    assert_eq!((tx.len(), rx.len(), slow.len()), (2, 1, 2));
    drop(slow);
    assert_eq!((tx.len(), rx.len()), (1, 1));
    rx.try_recv().unwrap();
    assert!(tx.is_empty() && rx.is_empty());
    assert_eq!(
        (
            tx.receiver_count(),
            tx.strong_count(),
            rx.sender_strong_count()
        ),
        (1, 1, 1)
    );
    let other = tx.clone();
    assert_eq!((tx.strong_count(), other.strong_count()), (2, 2));
}

#[test]
fn weak_senders_do_not_keep_the_channel_open() {
    let (tx, mut rx) = broadcast::channel(4);
    let weak = tx.downgrade();
    let other = weak.clone();
    assert_eq!((tx.strong_count(), tx.weak_count()), (1, 2));
    assert_eq!((weak.strong_count(), weak.weak_count()), (1, 2));
    assert_eq!((rx.sender_strong_count(), rx.sender_weak_count()), (1, 2));
    let upgraded = weak.upgrade().unwrap();
    assert!(upgraded.same_channel(&tx));
    drop(tx);
    upgraded.send(1).unwrap();
    drop(upgraded);
    assert!(rx.is_closed() && weak.upgrade().is_none());
    drop(other);
    assert_eq!((weak.strong_count(), weak.weak_count()), (0, 1));
    assert_eq!(rx.try_recv(), Ok(1));
    assert_eq!(rx.try_recv(), Err(TryRecvError::Closed));
    assert_eq!(format!("{weak:?}"), "broadcast::WeakSender");
}

#[test]
fn handles_know_their_channel() {
    let (tx, rx) = broadcast::channel::<u8>(4);
    let (other_tx, other_rx) = broadcast::channel::<u8>(4);
    assert!(tx.same_channel(&tx.clone()) && !tx.same_channel(&other_tx));
    assert!(rx.same_channel(&tx.subscribe()) && !rx.same_channel(&other_rx));
}

#[test]
fn texts_of_errors_and_handles() {
    let (tx, rx) = broadcast::channel::<u8>(4);
    assert_eq!(
        format!("{tx:?} {rx:?}"),
        "broadcast::Sender broadcast::Receiver"
    );
    assert_eq!(SendError(1).to_string(), "channel closed");
    assert_eq!(format!("{:?}", SendError(1)), "SendError(1)");
    assert_eq!(RecvError::Closed.to_string(), "channel closed");
    assert_eq!(RecvError::Lagged(3).to_string(), "channel lagged by 3");
    assert_eq!(TryRecvError::Empty.to_string(), "channel empty");
    assert_eq!(TryRecvError::Closed.to_string(), "channel closed");
    assert_eq!(TryRecvError::Lagged(3).to_string(), "channel lagged by 3");
}

struct Count(AtomicUsize);

impl Wake for Count {
    fn wake(self: Arc<Self>) {
        self.0.fetch_add(1, Ordering::SeqCst);
    }
}

#[test]
fn a_receive_that_waits_is_woken_by_a_send_and_by_the_end() {
    let (tx, mut rx) = broadcast::channel(4);
    let count = Arc::new(Count(AtomicUsize::new(0)));
    let waker = Waker::from(count.clone());
    let mut context = Context::from_waker(&waker);
    {
        let mut recv = pin!(rx.recv());
        assert_eq!(recv.as_mut().poll(&mut context), Poll::Pending);
        assert_eq!(recv.as_mut().poll(&mut context), Poll::Pending);
        assert_eq!(count.0.load(Ordering::SeqCst), 0);
        tx.send(7).unwrap();
        assert_eq!(count.0.load(Ordering::SeqCst), 1);
        assert_eq!(recv.as_mut().poll(&mut context), Poll::Ready(Ok(7)));
    }
    let mut recv = pin!(rx.recv());
    assert_eq!(recv.as_mut().poll(&mut context), Poll::Pending);
    drop(tx);
    assert_eq!(count.0.load(Ordering::SeqCst), 2);
    assert_eq!(
        recv.as_mut().poll(&mut context),
        Poll::Ready(Err(RecvError::Closed))
    );
}

#[test]
fn a_dropped_receive_has_received_nothing_and_is_woken_no_more() {
    let recorder = Recorder::new();
    let _entered = recorder.enter();
    let (tx, mut rx) = broadcast::channel(4);
    let count = Arc::new(Count(AtomicUsize::new(0)));
    let waker = Waker::from(count.clone());
    assert!(
        pin!(rx.recv())
            .poll(&mut Context::from_waker(&waker))
            .is_pending()
    );
    assert_eq!(poll_once(rx.recv()), None);
    tx.send(7).unwrap();
    assert_eq!(count.0.load(Ordering::SeqCst), 0);
    assert_eq!(poll_once(rx.recv()), Some(Ok(7)));
    // The two receives that waited left no entry.
    assert_eq!(recorder.len(), 2);
}

#[test]
#[cfg_attr(target_family = "wasm", ignore = "WebAssembly has no threads")]
fn closed_waits_until_no_receiver_is_alive() {
    let (tx, rx) = broadcast::channel::<u8>(4);
    let other = tx.subscribe();
    assert_eq!(poll_once(tx.closed()), None);
    let dropping = thread::spawn(move || drop((rx, other)));
    block_on(tx.closed());
    dropping.join().unwrap();
    assert_eq!(poll_once(tx.closed()), Some(()));
    let _rx = tx.subscribe();
    assert_eq!(poll_once(tx.closed()), None);
}

/// A value that counts its drop, and then may panic.
struct CountedDrop(Arc<AtomicUsize>, bool);

impl Drop for CountedDrop {
    fn drop(&mut self) {
        self.0.fetch_add(1, Ordering::SeqCst);
        assert!(!self.1, "this value's drop panics");
    }
}

/// Notes how many values were dropped when it was woken.
struct NotesDrops {
    dropped: Arc<AtomicUsize>,
    seen: AtomicUsize,
}

impl Wake for NotesDrops {
    fn wake(self: Arc<Self>) {
        self.seen
            .store(self.dropped.load(Ordering::SeqCst), Ordering::SeqCst);
    }
}

/// Drops the last receiver, which has yet to receive 4 values, while `closed` waits. The drop of
/// the value with this number panics. Returns how many were dropped when `closed` was woken, and
/// whether the receiver's drop panicked.
fn drop_last_receiver(panicking: Option<u32>) -> (usize, bool) {
    let dropped = Arc::new(AtomicUsize::new(0));
    let noting = Arc::new(NotesDrops {
        dropped: dropped.clone(),
        seen: AtomicUsize::new(0),
    });
    let (tx, rx) = broadcast::channel(4);
    for number in 0..4 {
        let sent = tx.send(Arc::new(CountedDrop(
            dropped.clone(),
            Some(number) == panicking,
        )));
        assert!(sent.is_ok());
    }
    let waker = Waker::from(noting.clone());
    let mut closed = pin!(tx.closed());
    let polled = closed.as_mut().poll(&mut Context::from_waker(&waker));
    assert!(polled.is_pending());
    let panicked = catch_unwind(AssertUnwindSafe(|| drop(rx))).is_err();
    assert_eq!(dropped.load(Ordering::SeqCst), 4);
    (noting.seen.load(Ordering::SeqCst), panicked)
}

#[test]
fn closed_is_woken_once_the_last_values_are_dropped() {
    assert_eq!(drop_last_receiver(None), (4, false));
}

#[test]
#[cfg_attr(target_family = "wasm", ignore = "WebAssembly ends at the first panic")]
fn closed_is_woken_also_if_the_drop_of_a_value_panics() {
    for panicking in 0..4 {
        assert_eq!(drop_last_receiver(Some(panicking)), (4, true));
    }
}

#[test]
fn values_need_be_neither_send_nor_static() {
    let text = String::from("a b");
    let (tx, mut rx) = broadcast::channel::<&str>(4);
    for word in text.split(' ') {
        tx.send(word).unwrap();
    }
    assert_eq!((rx.try_recv(), rx.try_recv()), (Ok("a"), Ok("b")));
    let (tx, mut rx) = broadcast::channel(4);
    tx.send(std::rc::Rc::new(1)).unwrap();
    assert_eq!(*rx.try_recv().unwrap(), 1);
}

#[test]
fn handles_and_futures_cross_threads_as_tokios_do() {
    fn send<T: Send>(_: &T) {}
    fn sync<T: Sync>(_: &T) {}
    // A `Cell` is `Send` but not `Sync`.
    let (tx, mut rx) = broadcast::channel::<std::cell::Cell<u8>>(4);
    send(&tx);
    sync(&tx);
    send(&rx);
    sync(&rx);
    send(&tx.closed());
    send(&rx.recv());
}

#[test]
fn handles_are_unwind_safe_for_values_of_all_types() {
    fn unwind_safe<T: UnwindSafe + RefUnwindSafe>(_: &T) {}
    let (tx, rx) = broadcast::channel::<std::cell::Cell<u8>>(4);
    unwind_safe(&tx);
    unwind_safe(&rx);
    unwind_safe(&tx.downgrade());
}

#[test]
#[should_panic(expected = "broadcast channel capacity cannot be zero")]
fn a_capacity_of_nothing() {
    broadcast::channel::<u8>(0);
}

#[test]
#[should_panic(expected = "broadcast channel capacity exceeded `usize::MAX / 2`")]
fn a_capacity_beyond_tokio_s_limit() {
    broadcast::channel::<u8>(usize::MAX / 2 + 1);
}

#[test]
fn a_capacity_beyond_what_is_retained() {
    const RETAINED: usize = 65_536;
    for capacity in [RETAINED + 1, 100_000, 1_000_000, usize::MAX / 2] {
        let recorder = Recorder::new();
        let _entered = (capacity % 2 == 0).then(|| recorder.enter());
        let (tx, mut rx) = broadcast::channel(capacity);
        for value in 0..=RETAINED {
            tx.send(value).unwrap();
        }
        assert_eq!(rx.try_recv(), Err(TryRecvError::Lagged(1)));
        for value in 1..=RETAINED {
            assert_eq!(rx.try_recv(), Ok(value));
        }
        assert_eq!(rx.try_recv(), Err(TryRecvError::Empty));
    }
}
