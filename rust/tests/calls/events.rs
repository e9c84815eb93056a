//! Closures that are called with a lag or a closing, on the channels of a recorder.

use crate::noted::Noted;
use crate::told::{line, send_each};
use std::future::Future;
use std::panic::{AssertUnwindSafe, catch_unwind};
use std::pin::pin;
use std::sync::{Arc, Mutex};
use std::task::{Context, Waker};
use std::thread;
use yovanelum::broadcast::error::{RecvError, TryRecvError};
use yovanelum::{Close, Lag, Recorder, block_on, broadcast, named, watch};

#[test]
fn a_lag_says_each_thing_of_the_channel_the_receiver_and_the_sender() {
    let (recorder, lags) = (Recorder::new(), Noted::<Lag>::default());
    recorder.on_lag(lags.noting());
    let _entered = recorder.enter();
    let (made, (prices, first)) = (line!(), broadcast::channel(2));
    let (subscribed, mut chart) = (line!(), prices.subscribe());
    recorder.name(&prices, "prices").name(&chart, "chart");
    drop(first);
    for price in 0..5 {
        prices.send(price).unwrap();
    }
    assert_eq!(chart.try_recv(), Err(TryRecvError::Lagged(3)));
    assert_eq!(chart.try_recv(), Ok(3));
    // The values 3, of the first ones, and 4 are retained. The second send after it overwrites 4.
    let (overwritten, sent) = block_on(named("exchange", async {
        send_each(&prices, 0..1);
        let overwritten = (line!(), prices.send(6).unwrap()).0;
        send_each(&prices, 7..9);
        (overwritten, (line!(), prices.send(9).unwrap()).0)
    }));
    let (received, result) = (line!(), block_on(chart.recv()));
    assert_eq!(result, Err(RecvError::Lagged(4)));

    let lags = lags.take();
    assert_eq!(lags.len(), 2);
    let (first, lag) = (&lags[0], &lags[1]);
    assert_eq!((lag.channel(), lag.receiver()), ("prices", "chart"));
    assert_eq!(lag.capacity(), 2);
    assert_eq!(line(lag.channel_made_at()), made);
    assert_eq!(line(lag.receiver_made_at()), subscribed);
    assert_eq!(line(lag.received_at()), received);
    assert_eq!(
        (first.lost(), first.lost_in_all(), first.unread()),
        (3, 3, 2)
    );
    assert_eq!((lag.lost(), lag.lost_in_all(), lag.unread()), (4, 7, 2));
    assert_eq!(lag.sender(), Some("exchange"));
    assert_eq!(line(lag.sent_at()), sent);
    assert_eq!(lag.overwritten_by(), Some("exchange"));
    assert_eq!(line(lag.overwritten_at()), overwritten);
    // The thread of a test has its name.
    assert_eq!(first.sender(), thread::current().name());
    let text = format!(
        "`chart` lost 4 values of `prices` (capacity 2), 7 in all, and has 2 to receive; the first was overwritten by exchange at {}:{overwritten}",
        file!()
    );
    assert_eq!(lag.to_string(), text);
}

/// Has two senders take turns, so that the receiver has lost values when it asks. Returns the
/// event.
fn overwriter(recorder: Recorder, values: u64) -> Lag {
    let lags = Noted::<Lag>::default();
    recorder.on_lag(lags.noting());
    let _entered = recorder.enter();
    let (prices, mut chart) = broadcast::channel(4);
    let mut asks = |lost| assert_eq!(chart.try_recv(), Err(TryRecvError::Lagged(lost)));
    for price in 0..values {
        let sender = if price % 10 == 4 { "exchange" } else { "desk" };
        block_on(named(sender, async { prices.send(price) })).unwrap();
        // Questions are calls between the sends.
        assert_eq!(prices.receiver_count(), 1);
    }
    asks(values - 4);
    let lag = lags.take().remove(0);
    assert_eq!(lag.sender(), Some("desk"));
    lag
}

#[test]
fn a_lag_says_whose_send_overwrote_the_first_value_where_that_is_kept() {
    // The values 0 to 8 are lost. The first one was overwritten by the value 4.
    for recorder in [Recorder::new(), Recorder::flight(20)] {
        let lag = overwriter(recorder, 13);
        assert_eq!(lag.overwritten_by(), Some("exchange"));
        let text = lag.to_string();
        assert!(
            text.contains("; the first was overwritten by exchange at "),
            "{text}"
        );
        assert!(!text.contains("the last send"), "{text}");
    }
    // Of 1000 calls, this keeps the last ones alone.
    let lag = overwriter(Recorder::flight(20), 500);
    assert_eq!(lag.overwritten_by(), None);
    let text = lag.to_string();
    assert!(text.contains("; the last send was by desk at "), "{text}");
    assert!(!text.contains("overwritten"), "{text}");
}

#[test]
fn a_lag_of_one_value_was_by_the_last_send() {
    for recorder in [Recorder::new(), Recorder::flight(1)] {
        let lags = Noted::<Lag>::default();
        recorder.on_lag(lags.noting());
        let _entered = recorder.enter();
        let (prices, mut chart) = broadcast::channel(2);
        for (sender, price) in [("exchange", 0), ("exchange", 1), ("desk", 2)] {
            block_on(named(sender, async { prices.send(price) })).unwrap();
        }
        assert_eq!(chart.try_recv(), Err(TryRecvError::Lagged(1)));
        assert_eq!(lags.take()[0].overwritten_by(), Some("desk"));
    }
}

#[test]
fn what_has_no_name_is_called_by_its_place_or_its_number() {
    let (recorder, lags) = (Recorder::new(), Noted::<Lag>::default());
    recorder.on_lag(lags.noting());
    let _entered = recorder.enter();
    let (made, (prices, mut chart)) = (line!(), broadcast::channel(1));
    send_each(&prices, 0..2);
    assert!(chart.blocking_recv().is_err());
    let lag = &lags.take()[0];
    assert_eq!(lag.channel(), format!("channel at {}:{made}", file!()));
    assert_eq!(lag.receiver(), "receiver 1");
    let text = lag.to_string();
    assert!(
        text.starts_with("`receiver 1` lost 1 value of `channel at "),
        "{text}"
    );
}

#[test]
fn a_close_says_each_thing_of_the_channel_and_of_who_closed_it() {
    let (recorder, closed) = (Recorder::new(), Noted::<Close>::default());
    recorder.on_close(closed.noting());
    let _entered = recorder.enter();
    let (made, (prices, _chart)) = (line!(), broadcast::channel(4));
    let mut audit = prices.subscribe();
    recorder.name(&prices, "prices");
    let other = prices.clone();
    prices.send(1).unwrap();
    let (sent, _) = (line!(), prices.send(2).unwrap());
    audit.try_recv().unwrap();
    drop(prices);
    assert!(closed.take().is_empty(), "a sender is left");
    block_on(named("exchange", async { drop(other) }));

    let all = closed.take();
    assert_eq!(all.len(), 1);
    let close = &all[0];
    assert_eq!((close.channel(), close.closed_by()), ("prices", "exchange"));
    assert_eq!(line(close.channel_made_at()), made);
    assert_eq!(close.capacity(), Some(4));
    assert_eq!((close.sent(), close.receivers(), close.unread()), (2, 2, 2));
    assert_eq!(close.sender(), thread::current().name());
    assert_eq!(line(close.sent_at()), sent);
    let text = format!(
        "`prices` was closed by exchange after 2 values, with 2 receivers, of which one has 2 to receive; the last send was by {} at {}:{sent}",
        thread::current().name().unwrap(),
        file!()
    );
    assert_eq!(close.to_string(), text);
}

#[test]
fn a_watch_closes_with_its_last_sender_too() {
    let (recorder, closed) = (Recorder::new(), Noted::<Close>::default());
    recorder.on_close(closed.noting());
    let _entered = recorder.enter();
    let (config, server) = watch::channel("v1");
    recorder.name(&config, "config");
    drop(server);
    let _client = config.subscribe();
    drop(config);
    // A sender that is made without a receiver closes nothing, and one whose receivers are gone is
    // open.
    let alone = watch::Sender::new(1);
    let all = closed.take();
    assert_eq!(all.len(), 1);
    let close = &all[0];
    assert_eq!((close.channel(), close.capacity()), ("config", None));
    assert_eq!((close.sent(), close.receivers(), close.unread()), (0, 1, 0));
    assert_eq!((close.sender(), close.sent_at()), (None, None));
    let text = close.to_string();
    assert!(
        text.ends_with("with 1 receiver, which has 0 to receive; nothing was sent"),
        "{text}"
    );
    drop(alone);
    let all = closed.take();
    assert!(
        all[0].to_string().contains(", without receivers;"),
        "{}",
        all[0]
    );
}

#[test]
fn the_closure_may_use_the_channel_that_it_is_told_of() {
    let recorder = Recorder::new();
    let _entered = recorder.enter();
    let (prices, mut chart) = broadcast::channel(1);
    let (audit, sender) = (Mutex::new(prices.subscribe()), prices.clone());
    let (sent, received) = (
        Noted::<usize>::default(),
        Noted::<Result<i32, TryRecvError>>::default(),
    );
    let (note_sent, note_received) = (sent.noting(), received.noting());
    recorder.on_lag(move |lag| {
        // The other receiver lags here, which calls the closure within itself.
        if let Ok(mut audit) = audit.try_lock() {
            note_received(&audit.try_recv());
            note_sent(&sender.send(7).unwrap());
            note_received(&audit.try_recv());
            note_received(&sender.subscribe().try_recv());
        } else {
            assert_eq!((lag.lost(), sender.receiver_count()), (1, 2));
        }
    });
    // By a receive that returns at once, one that is polled, and one that blocks.
    send_each(&prices, 0..2);
    assert_eq!(chart.try_recv(), Err(TryRecvError::Lagged(1)));
    prices.send(8).unwrap();
    let mut context = Context::from_waker(Waker::noop());
    assert!(pin!(chart.recv()).as_mut().poll(&mut context).is_ready());
    prices.send(9).unwrap();
    assert!(chart.blocking_recv().is_err());
    // Its value was overwritten by the send in the closure, so it lags once more.
    let wanted = [
        TryRecvError::Lagged(1),
        TryRecvError::Lagged(1),
        TryRecvError::Empty,
    ];
    assert_eq!(received.take()[..3], wanted.map(Err));
    assert_eq!(sent.take(), [2, 2, 2]);
}

#[test]
#[cfg_attr(target_family = "wasm", ignore = "WebAssembly ends at the first panic")]
fn a_panic_of_the_closure_is_one_of_the_receive_and_loses_no_value() {
    let recorder = Recorder::new();
    recorder.on_lag(|lag| panic!("lost {}", lag.lost()));
    let _entered = recorder.enter();
    let (prices, mut chart) = broadcast::channel(2);
    send_each(&prices, 0..3);
    let panicked = catch_unwind(AssertUnwindSafe(|| chart.try_recv())).unwrap_err();
    assert_eq!(panicked.downcast_ref::<String>().unwrap(), "lost 1");
    assert_eq!((chart.try_recv(), chart.try_recv()), (Ok(1), Ok(2)));
    assert_eq!(prices.send(4).unwrap(), 1);
    assert!(
        recorder
            .journal()
            .unwrap()
            .contains("try-recv 1 = lagged 1")
    );
}

#[test]
#[cfg_attr(target_family = "wasm", ignore = "WebAssembly ends at the first panic")]
fn a_panic_of_the_closure_leaves_nobody_waiting_for_a_channel_that_is_closed() {
    let recorder = Recorder::new();
    recorder.on_close(|_| panic!("closed"));
    let _entered = recorder.enter();
    let (prices, mut chart) = broadcast::channel::<u32>(2);
    let waiting = thread::spawn(move || chart.blocking_recv());
    while recorder.waiting().is_empty() {
        thread::yield_now();
    }
    assert!(catch_unwind(AssertUnwindSafe(|| drop(prices))).is_err());
    assert_eq!(waiting.join().unwrap(), Err(RecvError::Closed));
    // A sender that is dropped by a panic: the process would end if the closure's panic went on
    // too.
    let panicked = catch_unwind(AssertUnwindSafe(|| {
        let (_prices, _chart) = broadcast::channel::<u32>(2);
        panic!("the first");
    }));
    assert_eq!(
        panicked.unwrap_err().downcast_ref::<&str>(),
        Some(&"the first")
    );
}

#[test]
fn a_closure_that_is_set_later_replaces_the_first() {
    let (recorder, first, later) = (Recorder::new(), Noted::<Lag>::default(), Noted::default());
    recorder.on_lag(first.noting()).on_lag(later.noting());
    let (closed, closed_later) = (Noted::<Close>::default(), Noted::default());
    recorder
        .on_close(closed.noting())
        .on_close(closed_later.noting());
    let _entered = recorder.enter();
    let (prices, mut chart) = broadcast::channel(1);
    send_each(&prices, 0..2);
    assert!(chart.try_recv().is_err());
    drop(prices);
    assert_eq!((first.take().len(), later.take().len()), (0, 1));
    assert_eq!((closed.take().len(), closed_later.take().len()), (0, 1));
}

#[test]
fn a_channel_that_the_closure_holds_is_closed_once_the_recorder_is_dropped() {
    let recorder = Recorder::new();
    let entered = recorder.enter();
    let (prices, mut chart) = broadcast::channel::<u32>(1);
    let held = Arc::new(());
    let (weak, sender) = (Arc::downgrade(&held), prices.clone());
    recorder.on_lag(move |_| assert_eq!((Arc::strong_count(&held), sender.strong_count()), (1, 1)));
    drop(prices);
    assert_eq!(chart.try_recv(), Err(TryRecvError::Empty));
    drop((entered, recorder));
    assert!(weak.upgrade().is_none());
    assert_eq!(chart.try_recv(), Err(TryRecvError::Closed));
}
