//! At the limits of a run: which channels are in it, and channels with more handles than a journal
//! names.

use crate::support::{accepted, poll_once};
use std::future::Future;
use std::pin::pin;
use std::sync::Arc;
use std::sync::atomic::{AtomicUsize, Ordering};
use std::task::{Context, Wake, Waker};
use yovanelum::broadcast::error::{RecvError, TryRecvError};
use yovanelum::{Recorder, broadcast, watch};

/// How many handles a journal names, and how many values a broadcast retains.
const MOST: usize = 65_536;

#[test]
fn while_64_channels_are_alive_the_65th_is_recorded_by_none_and_works() {
    let recorder = Recorder::new();
    let _entered = recorder.enter();
    let channels: Vec<_> = (0..70).map(|_| broadcast::channel(2)).collect();
    for (number, (tx, _)) in channels.iter().enumerate() {
        assert_eq!(tx.send(number).unwrap(), 1);
        // Each belongs to the recorder, so it may be named.
        Recorder::of(tx)
            .unwrap()
            .name(tx, &format!("channel {number}"));
    }
    for (number, (_, rx)) in channels.into_iter().enumerate() {
        assert_eq!({ rx }.try_recv(), Ok(number));
    }
    let entries = accepted(&recorder, "channels");
    assert_eq!((entries, recorder.len()), (64 * 4, 64 * 4));
    let names = recorder.names();
    assert!(names.contains(r#""63": "channel 63"}"#), "{names}");
}

#[test]
fn a_broadcast_of_the_greatest_capacity_retains_as_many_values() {
    let recorder = Recorder::new();
    let _entered = recorder.enter();
    let (tx, mut rx) = broadcast::channel(MOST);
    for value in 0..MOST + 2 {
        assert_eq!(tx.send(value).unwrap(), 1);
    }
    assert_eq!((tx.len(), rx.len()), (MOST, MOST + 2));
    assert_eq!(rx.try_recv(), Err(TryRecvError::Lagged(2)));
    for value in 2..MOST + 2 {
        assert_eq!(rx.try_recv(), Ok(value));
    }
    assert_eq!(rx.try_recv(), Err(TryRecvError::Empty));
    // The sends, both lengths, the lag, the values and the empty channel.
    let calls = (MOST + 2) + 2 + 1 + MOST + 1;
    assert_eq!(accepted(&recorder, "greatest"), calls as u64);
}

#[test]
fn a_loop_of_100_cases_that_fails_at_its_70th_has_that_case_in_its_journal() {
    let recorder = Recorder::new();
    let _entered = recorder.enter();
    for case in 1..=100 {
        let (orders, mut audit) = broadcast::channel(2);
        let (state, _rx) = watch::channel("open");
        recorder.name(&orders, &format!("orders of case {case}"));
        recorder.name(&state, &format!("state of case {case}"));
        recorder.show(&orders, |order| format!("order {order}"));
        let sent = if case == 70 { 3 } else { 2 };
        for order in 0..sent {
            orders.send(case * 10 + order).unwrap();
        }
        if audit.try_recv() != Ok(case * 10) {
            break;
        }
    }
    let names = recorder.names();
    assert!(names.contains(r#""62": "orders of case 70", "63": "state of case 70""#));
    assert!(names.contains(r#""0": "orders of case 39", "1": "state of case 39""#));
    assert!(names.contains(r#""62": {"0": "order 700", "1": "order 701", "2": "order 702"}"#));
    let journal = recorder.journal().unwrap();
    assert!(journal.contains(" 62 try-recv 1 = lagged 1\n"), "{journal}");
    // Of each broadcast two sends, a receive and two drops, and of each watch two drops. The case
    // that failed has a send more.
    assert_eq!(accepted(&recorder, "loop"), 32 * 7 + 1);
}

#[test]
fn a_channel_stays_in_the_run_while_a_handle_is_alive() {
    let recorder = Recorder::new();
    let _entered = recorder.enter();
    let of_sender = broadcast::Sender::<u8>::new(2);
    let (_, of_receiver) = broadcast::channel::<u8>(2);
    let of_weak = broadcast::Sender::<u8>::new(2).downgrade();
    recorder
        .name(&of_sender, "of a sender")
        .name_channel(&of_receiver, "of a receiver")
        .name(&of_weak, "of a weak sender");
    for _ in 0..200 {
        drop(watch::channel(0));
    }
    let first = r#""0": "of a sender", "1": "of a receiver", "2": "of a weak sender"}"#;
    assert!(recorder.names().contains(first), "{}", recorder.names());
    assert_eq!(of_sender.receiver_count(), 0);
    drop((of_sender, of_receiver));
    for _ in 0..2 {
        drop(watch::channel(0));
    }
    let names = recorder.names();
    assert!(names.contains(r#"{"0": "of a weak sender"}"#), "{names}");
    accepted(&recorder, "stays");
}

#[test]
fn where_64_are_alive_and_one_dies_the_next_one_is_recorded() {
    let recorder = Recorder::new();
    let _entered = recorder.enter();
    let mut alive: Vec<_> = (0..64).map(|_| broadcast::channel::<u8>(2)).collect();
    let open = || drop(broadcast::Sender::<u8>::new(2));
    open();
    assert_eq!(recorder.len(), 0);
    drop(alive.swap_remove(30));
    // The two calls on that channel leave the run with it. The two on the new one are its drops.
    assert_eq!(recorder.len(), 2);
    open();
    assert_eq!(recorder.len(), 2);
    assert!(recorder.journal().unwrap().contains(" 63 drop 0 = dropped"));
    accepted(&recorder, "one-dies");
}

#[test]
fn a_server_that_makes_70_000_receivers_goes_on_and_is_recorded_up_to_the_limit() {
    let recorder = Recorder::new();
    let _entered = recorder.enter();
    let (tx, mut first) = broadcast::channel(2);
    let (other, _listener) = broadcast::channel(2);
    for number in 0..70_000 {
        let mut connection = tx.subscribe();
        if number % 1_000 == 0 {
            assert_eq!(tx.send(number).unwrap(), 2);
            assert_eq!(connection.try_recv(), Ok(number));
        }
    }
    // Of the 70 sends, the last two are retained.
    assert_eq!(first.try_recv(), Err(TryRecvError::Lagged(68)));
    assert_eq!(first.try_recv(), Ok(68_000));
    assert_eq!(poll_once(first.recv()), Some(Ok(69_000)));
    assert_eq!((tx.receiver_count(), tx.len(), first.len()), (1, 0, 0));
    let before = recorder.len();
    other.send(7).unwrap();
    assert_eq!(recorder.len(), before + 1);
    let made = MOST as u64 - 2;
    // Up to the limit each receiver was created and dropped, and 66 values were sent and received.
    assert_eq!(accepted(&recorder, "server"), 2 * made + 2 * 66 + 1);
    let journal = recorder.journal().unwrap();
    assert!(journal.contains("subscribe 0 = new 65535\n"));
    assert!(journal.contains("drop 65535 = dropped\n"));
    assert!(!journal.contains("too-many-handles"));
}

/// Counts how often it is woken.
#[derive(Default)]
struct Counts(AtomicUsize);

impl Wake for Counts {
    fn wake(self: Arc<Self>) {
        self.0.fetch_add(1, Ordering::Relaxed);
    }
}

/// Creates a broadcast of two values with 70,000 receivers, of which the last ones have numbers
/// that no journal names.
fn seventy_thousand() -> (broadcast::Sender<u32>, Vec<broadcast::Receiver<u32>>) {
    let (tx, rx) = broadcast::channel(2);
    let mut receivers = vec![rx];
    receivers.extend((1..70_000).map(|_| tx.subscribe()));
    assert_eq!(tx.receiver_count(), 70_000);
    (tx, receivers)
}

#[test]
fn of_70_000_receivers_those_that_wait_are_woken() {
    let (tx, mut receivers) = seventy_thousand();
    let woken = Arc::new(Counts::default());
    let waker = Waker::from(woken.clone());
    let [first, .., last] = &mut receivers[..] else {
        panic!("there are 70,000");
    };
    let (mut first, mut last) = (pin!(first.recv()), pin!(last.recv()));
    let mut context = Context::from_waker(&waker);
    assert!(first.as_mut().poll(&mut context).is_pending());
    assert!(last.as_mut().poll(&mut context).is_pending());
    assert_eq!(tx.send(1).unwrap(), 70_000);
    assert_eq!(woken.0.load(Ordering::Relaxed), 2);
    assert_eq!(poll_once(first), Some(Ok(1)));
    assert_eq!(poll_once(last), Some(Ok(1)));
}

#[test]
fn seventy_thousand_receivers_get_each_value() {
    let (tx, mut receivers) = seventy_thousand();
    assert_eq!(tx.send(1).unwrap(), 70_000);
    // A sender that no journal names sends to all as well.
    let other = tx.clone();
    assert_eq!(other.send(2).unwrap(), 70_000);
    drop(tx);
    assert_eq!(other.send(3).unwrap(), 70_000);
    assert_eq!(other.len(), 2);
    drop(other);
    for rx in &mut receivers {
        assert_eq!(rx.try_recv(), Err(TryRecvError::Lagged(1)));
        assert_eq!(rx.try_recv(), Ok(2));
        assert_eq!(rx.try_recv(), Ok(3));
        assert_eq!(rx.try_recv(), Err(TryRecvError::Closed));
    }
    assert_eq!(receivers[0].sender_strong_count(), 0);
    // Receivers of a closed channel are created too.
    let mut late = receivers[0].resubscribe();
    assert_eq!(poll_once(late.recv()), Some(Err(RecvError::Closed)));
}

#[test]
fn seventy_thousand_weak_senders_and_senders() {
    let (tx, mut rx) = broadcast::channel(4);
    let weak: Vec<_> = (0..70_000).map(|_| tx.downgrade()).collect();
    assert_eq!((tx.weak_count(), tx.strong_count()), (70_000, 1));
    let senders: Vec<_> = weak.iter().map(|weak| weak.upgrade().unwrap()).collect();
    assert_eq!(tx.strong_count(), 70_001);
    drop(tx);
    assert_eq!(senders[69_999].send(5).unwrap(), 1);
    assert_eq!(senders[0].send(6).unwrap(), 1);
    drop(senders);
    assert!(weak.iter().all(|weak| weak.upgrade().is_none()));
    assert_eq!(weak[0].clone().weak_count(), 70_001);
    assert_eq!(rx.try_recv(), Ok(5));
    assert_eq!(rx.try_recv(), Ok(6));
    assert_eq!(rx.try_recv(), Err(TryRecvError::Closed));
}

#[test]
fn seventy_thousand_receivers_of_a_watch() {
    let (tx, rx) = watch::channel(0);
    tx.send(1).unwrap();
    // Neither the original nor its clones have seen the value. Those of `subscribe` have.
    let mut clones: Vec<_> = (0..70_000).map(|_| rx.clone()).collect();
    let subscribed: Vec<_> = (0..70_000).map(|_| tx.subscribe()).collect();
    assert_eq!(tx.receiver_count(), 140_001);
    assert!(clones.iter().all(|rx| rx.has_changed().unwrap()));
    assert!(subscribed.iter().all(|rx| !rx.has_changed().unwrap()));
    for rx in &mut clones {
        assert_eq!(
            poll_once(rx.changed()).map(|changed| changed.is_ok()),
            Some(true)
        );
        assert!(!rx.clone().has_changed().unwrap());
    }
    tx.send(2).unwrap();
    assert!(
        subscribed
            .iter()
            .all(|rx| rx.has_changed().unwrap() && *rx.borrow() == 2)
    );
    drop((rx, clones));
    assert_eq!(poll_once(tx.closed()), None);
    drop(subscribed);
    assert_eq!(poll_once(tx.closed()), Some(()));
    assert!(tx.send(3).is_err());
}

#[test]
fn at_a_full_journal_recording_ends_and_calls_go_on() {
    let recorder = Recorder::new();
    let _entered = recorder.enter();
    let (tx, mut rx) = broadcast::channel(2);
    let (other, mut from_other) = broadcast::channel(2);
    recorder.show(&other, |value| format!("{value} sent"));
    for value in 0..1_048_577u64 {
        assert_eq!(tx.send(value).unwrap(), 1);
        if value % 100_000 == 0 {
            other.send(value).unwrap();
        }
    }
    assert_eq!((tx.len(), rx.len()), (2, 1_048_577));
    assert_eq!(
        rx.try_recv(),
        Err(broadcast::error::TryRecvError::Lagged(1_048_575))
    );
    assert_eq!(rx.try_recv(), Ok(1_048_575));
    assert_eq!(rx.try_recv(), Ok(1_048_576));
    // Calls on the other channel aren't recorded any more either.
    let before = recorder.len();
    other.send(0).unwrap();
    assert!(from_other.try_recv().is_err());
    drop((tx, rx, other, from_other));
    assert_eq!(recorder.len(), before);
    let names = recorder.names();
    assert!(names.contains(r#""10": "1000000 sent"}"#), "{names}");
    assert_eq!(accepted(&recorder, "full"), 1_048_576 + 11);
}
