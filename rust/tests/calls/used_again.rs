//! A channel that creates many senders and receivers, of which few are alive: what the dropped ones
//! had is used again, and each that is alive is the one that it was, for its calls and by its name.

use crate::noted::Noted;
use crate::support::{accepted, poll_once};
use std::future::Future;
use std::pin::pin;
use std::task::{Context, Poll, Waker};
use yovanelum::broadcast::error::{RecvError, TryRecvError};
use yovanelum::{ChannelSnapshot, Handle, Lag, Recorder, broadcast, watch};

/// How many receivers are created and dropped between others: more than the core keeps of so few.
const MANY: usize = 3_000;

/// How many handles a journal names.
const MOST: usize = 65_536;

fn create_and_drop(prices: &broadcast::Sender<u32>, count: usize) {
    (0..count).for_each(|_| drop(prices.subscribe()));
}

/// The names of a channel's receivers, as a snapshot has them.
fn names<H: Handle>(handle: &H) -> Vec<String> {
    let channel = ChannelSnapshot::of(handle);
    let receivers = channel.receivers().iter();
    receivers.map(|it| it.name().to_string()).collect()
}

#[test]
fn receivers_have_their_names_in_the_order_of_their_creation() {
    let off = Recorder::off();
    let _entered = off.enter();
    let (prices, chart) = broadcast::channel(2);
    off.name(&chart, "chart");
    create_and_drop(&prices, MANY);
    let audit = prices.subscribe();
    off.name(&audit, "audit");
    create_and_drop(&prices, MANY);
    let third = prices.subscribe();
    // The sender, the two above and those that were dropped were created before.
    let third_name = format!("receiver {}", 2 * MANY + 3);
    assert_eq!(names(&prices), ["chart", "audit", &third_name]);
    create_and_drop(&prices, MANY);
    drop((chart, audit));
    create_and_drop(&prices, MANY);
    let later = [prices.subscribe(), prices.subscribe()];
    let name_of = |before: usize| format!("receiver {}", 4 * MANY + 4 + before);
    assert_eq!(names(&prices), [third_name, name_of(0), name_of(1)]);
    off.name(&later[0], "later").name(&third, "third");
    assert_eq!(names(&prices), ["third", "later", &name_of(1)]);
}

#[test]
fn a_journal_and_its_names_are_of_those_that_it_names() {
    let (recorder, lags) = (Recorder::new(), Noted::<Lag>::default());
    recorder.on_lag(lags.noting());
    let _entered = recorder.enter();
    let (prices, mut chart) = broadcast::channel(2);
    let early = prices.subscribe();
    recorder.name(&chart, "chart").name(&early, "early");
    drop(early);
    create_and_drop(&prices, MOST - 3);
    // From here on nothing is recorded.
    create_and_drop(&prices, MANY);
    let mut late = prices.subscribe();
    recorder.name(&late, "late");
    create_and_drop(&prices, MANY);
    let mut unnamed = prices.subscribe();
    for price in 0..4 {
        assert_eq!(prices.send(price).unwrap(), 3);
    }
    for rx in [&mut chart, &mut late, &mut unnamed] {
        assert_eq!(rx.try_recv(), Err(TryRecvError::Lagged(2)));
    }
    drop(late);
    let mut another = prices.subscribe();
    for price in 4..8 {
        assert_eq!(prices.send(price).unwrap(), 3);
    }
    assert_eq!(another.try_recv(), Err(TryRecvError::Lagged(2)));
    let told: Vec<_> = lags
        .take()
        .iter()
        .map(|lag| lag.receiver().to_string())
        .collect();
    let before = MOST + 2 * MANY;
    let (unnamed, another) = (
        format!("receiver {}", before + 1),
        format!("receiver {}", before + 2),
    );
    assert_eq!(told, ["chart", "late", &unnamed, &another]);
    assert_eq!(names(&prices), ["chart", &unnamed, &another]);

    let names = recorder.names();
    assert!(
        names.contains(r#""handles": {"0": {"1": "chart", "2": "early"}}"#),
        "{names}"
    );
    // One call and one drop of each that the journal names, but of the first two.
    assert_eq!(accepted(&recorder, "used-again"), 2 * (MOST as u64 - 2));
}

#[test]
fn who_waits_is_woken_and_named() {
    let recorder = Recorder::new();
    let _entered = recorder.enter();
    let (prices, mut chart) = broadcast::channel(2);
    recorder.name(&chart, "chart");
    create_and_drop(&prices, MOST);
    let mut late = prices.subscribe();
    let mut context = Context::from_waker(Waker::noop());
    let (mut first, mut second) = (pin!(chart.recv()), pin!(late.recv()));
    assert!(first.as_mut().poll(&mut context).is_pending());
    assert!(second.as_mut().poll(&mut context).is_pending());
    create_and_drop(&prices, MANY);
    let late_name = format!("receiver {}", MOST + 2);
    let waiting = recorder.waiting();
    let waiting: Vec<_> = waiting.iter().map(|it| it.handle()).collect();
    assert_eq!(waiting, ["chart", &late_name]);
    let receivers = ChannelSnapshot::of(&prices);
    let waits = receivers
        .receivers()
        .iter()
        .map(|it| (it.name(), it.waits_in()));
    assert!(waits.eq([("chart", Some("recv")), (&*late_name, Some("recv"))]));
    assert_eq!(prices.send(7).unwrap(), 2);
    assert_eq!(first.poll(&mut context), Poll::Ready(Ok(7)));
    assert_eq!(second.poll(&mut context), Poll::Ready(Ok(7)));
}

#[test]
fn weak_senders_and_the_last_sender_are_who_they_were() {
    let _off = Recorder::off().enter();
    let (prices, mut chart) = broadcast::channel(4);
    create_and_drop(&prices, MANY);
    let weak = prices.downgrade();
    create_and_drop(&prices, MANY);
    let backup = weak.upgrade().unwrap();
    (0..MANY).for_each(|_| drop(weak.clone()));
    (0..MANY).for_each(|_| drop(backup.clone()));
    drop(prices);
    assert_eq!((backup.strong_count(), backup.weak_count()), (1, 1));
    assert_eq!(backup.send(5).unwrap(), 1);
    create_and_drop(&backup, MANY);
    drop(backup);
    assert!(weak.upgrade().is_none());
    // Receivers of a closed channel, too.
    (0..MANY).for_each(|_| drop(chart.resubscribe()));
    assert_eq!(poll_once(chart.recv()), Some(Ok(5)));
    assert_eq!(poll_once(chart.recv()), Some(Err(RecvError::Closed)));
    assert_eq!(
        poll_once(chart.resubscribe().recv()),
        Some(Err(RecvError::Closed))
    );
}

#[test]
fn receivers_of_a_watch_have_seen_what_they_had_seen() {
    let _off = Recorder::off().enter();
    let (state, mut old) = watch::channel(0);
    state.send(1).unwrap();
    (0..MANY).for_each(|_| drop(old.clone()));
    let new = state.subscribe();
    (0..MANY).for_each(|_| drop(state.subscribe()));
    assert!(old.has_changed().unwrap() && !new.has_changed().unwrap());
    assert_eq!(*old.borrow_and_update(), 1);
    (0..MANY).for_each(|_| drop(new.clone()));
    assert!(!old.has_changed().unwrap() && !new.has_changed().unwrap());
    state.send(2).unwrap();
    drop(old);
    assert_eq!((state.receiver_count(), *new.borrow()), (1, 2));
    drop(state);
    (0..MANY).for_each(|_| drop(new.clone()));
    assert!(new.has_changed().is_err());
}
