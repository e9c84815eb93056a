//! Eleven tests that fail as tests of programs do. `first_look.csv` has what went wrong in each, where and for whom, which its page has to answer without
//! a click. A comment at the end of a line is how `first_look.py` finds the line's number.

use shop::{Order, receive, start};
use std::future::Future;
use std::pin::pin;
use std::task::{Context, Poll, Waker};
use std::time::Duration;
use yovanelum::broadcast::Receiver;
use yovanelum::broadcast::error::TryRecvError;
use yovanelum::{Recorder, block_on, broadcast, watch};

/// Receives what is there, and says whether values were lost before it.
fn drained<T: Clone>(events: &mut Receiver<T>) -> (Vec<T>, bool) {
    let (mut found, mut has_lost) = (Vec::new(), false);
    loop {
        match events.try_recv() {
            Ok(event) => found.push(event),
            Err(TryRecvError::Lagged(_)) => has_lost = true, // a drain is told
            Err(_) => return (found, has_lost),
        }
    }
}

/// Polls a future once, and drops it.
fn polled<F: Future>(future: F) -> Poll<F::Output> {
    pin!(future).poll(&mut Context::from_waker(Waker::noop()))
}

#[test]
fn every_client_hears_each_price() {
    let recorder = Recorder::for_test("every_client_hears_each_price");
    let prices = broadcast::Sender::new(4);
    recorder
        .name(&prices, "prices")
        .show(&prices, |price| format!("{price} EUR"));
    let mut clients: Vec<_> = (0..40).map(|_| prices.subscribe()).collect();
    for (number, client) in clients.iter_mut().enumerate() {
        recorder.name(client, &format!("client {number}"));
    }
    let mut late = Vec::new();
    for price in 1..=9 {
        prices.send(price).unwrap(); // a price goes out
        for (number, client) in clients.iter_mut().enumerate() {
            // Two clients are busy until the last price.
            let is_busy = [24, 38].contains(&number) && price < 9;
            if !is_busy && drained(client).1 {
                late.push(number);
            }
        }
    }
    assert!(late.is_empty(), "clients {late:?} missed prices"); // the clients are asked
}

#[test]
fn every_event_reaches_the_audit_log() {
    let recorder = Recorder::for_test("every_event_reaches_the_audit_log");
    let (events, mut audit) = broadcast::channel(16);
    let mut mail = events.subscribe();
    recorder
        .name(&events, "events")
        .name(&audit, "audit log")
        .name(&mail, "mail")
        .show(&events, |id| format!("OrderPlaced {{ id: {id} }}"));
    let publisher = start("publisher", move || {
        let mut sent = 0;
        for id in 0..60 {
            sent += drained(&mut mail).0.len();
            events.send(id).unwrap(); // an event is published
        }
        (sent, events)
    });
    let (_, events) = publisher.join().unwrap();
    let (logged, _) = drained(&mut audit);
    assert_eq!(logged.len(), 60); // the log is counted
    drop(events);
}

#[test]
fn all_readers_see_every_config() {
    let recorder = Recorder::for_test("all_readers_see_every_config");
    let (config, mut reader) = watch::channel(0);
    recorder
        .name(&config, "config")
        .name(&reader, "reader")
        .show(&config, |version| format!("config {version}"));
    let mut seen = Vec::new();
    for version in 1..=17 {
        config.send(version).unwrap(); // a config is set
        if version == 1 || version == 17 {
            seen.push(*reader.borrow_and_update()); // a config is seen
        }
    }
    assert_eq!(seen, Vec::from_iter(1..=17)); // the configs are compared
}

#[test]
fn the_worker_gets_its_go() {
    let recorder = Recorder::for_test("the_worker_gets_its_go");
    let (state, mut reader) = watch::channel("loading"); // the go is made
    recorder
        .name(&state, "state")
        .name(&reader, "reader")
        .show(&state, |state| state.to_string());
    state.send("busy").unwrap(); // the last state is sent
    let worker = start("worker", move || {
        block_on(reader.wait_for(|state| *state == "go")).is_ok() // the worker waits for go
    });
    while recorder.waiting().is_empty() {
        std::thread::yield_now();
    }
    let _recorder = recorder.watchdog(Duration::from_millis(1));
    assert!(worker.join().unwrap());
}

#[test]
fn the_feed_stays_open() {
    let recorder = Recorder::for_test("the_feed_stays_open");
    let (feed, mut news) = broadcast::channel(8);
    recorder
        .name(&feed, "feed")
        .name(&news, "news")
        .show(&feed, |item| format!("item {item}"));
    let importer = start("importer", move || {
        (1..=3).for_each(|item| drop(feed.send(item)));
    }); // the importer ends
    importer.join().unwrap();
    let items: Vec<_> = (0..4)
        .map(|_| block_on(receive("desk", &mut news)))
        .collect();
    assert_eq!(items, [Some(1), Some(2), Some(3), Some(4)]); // the items are compared
}

#[test]
fn no_job_is_lost_untold() {
    let recorder = Recorder::for_test("no_job_is_lost_untold");
    let (jobs, mut log) = broadcast::channel(2);
    recorder
        .name(&jobs, "jobs")
        .name(&log, "log")
        .show(&jobs, |job| format!("job {job}"));
    let mut done = Vec::new();
    for job in 1..=7 {
        jobs.send(job).unwrap(); // a job is given
        if job < 3 {
            done.extend(log.try_recv());
        }
    }
    drop(log); // the log is dropped
    assert_eq!(done, [1, 2, 3, 4, 5, 6, 7]); // the jobs are compared
}

#[test]
fn the_sum_of_both_tills_is_right() {
    let recorder = Recorder::for_test("the_sum_of_both_tills_is_right");
    let (sales, mut left) = broadcast::channel(8);
    let mut right = sales.subscribe();
    recorder
        .name(&sales, "sales")
        .name(&left, "left till")
        .name(&right, "right till")
        .show(&sales, |sale| format!("sale of {sale}"));
    for sale in [3, 4, 5] {
        sales.send(sale).unwrap();
    }
    let sum: u32 = drained(&mut left)
        .0
        .iter()
        .chain(&drained(&mut right).0)
        .sum();
    assert_eq!(sum, 25, "both tills have each sale"); // the sum is wrong
}

#[test]
fn the_overlapping_rooms_keep_their_talk() {
    let recorder = Recorder::for_test("the_overlapping_rooms_keep_their_talk");
    let mut rooms = Vec::new();
    for name in ["kitchen", "garden", "cellar"] {
        let (room, listener) = broadcast::channel(3);
        recorder
            .name(&room, name)
            .name(&listener, &format!("listener of the {name}"))
            .show(&room, |said| format!("“{said}”"));
        rooms.push((room, listener));
    }
    for turn in 0..5 {
        for (number, (room, listener)) in rooms.iter_mut().enumerate() {
            room.send(format!("{turn} is said")).unwrap(); // something is said
            if number != 1 {
                listener.try_recv().unwrap();
            }
        }
    }
    let heard = rooms[1].1.try_recv(); // the garden is told
    assert_eq!(heard, Ok("0 is said".to_string())); // the talk is compared
}

#[test]
fn each_order_is_delivered_in_whole() {
    let recorder = Recorder::for_test("each_order_is_delivered_in_whole");
    let (orders, mut desk) = broadcast::channel(1);
    recorder
        .name(&orders, "orders")
        .name(&desk, "desk")
        .show(&orders, |order: &Order| format!("{order:#?}"));
    for id in 1..=3 {
        let note = format!("to be delivered in the morning of day {id}, ring twice");
        orders.send(Order { id, note }).unwrap(); // an order goes out
    }
    let order = desk.try_recv(); // the desk hears of it
    assert_eq!(order.map(|it| it.id), Ok(1)); // the order is compared
}

#[test]
fn no_limit_is_skipped() {
    let recorder = Recorder::for_test("no_limit_is_skipped");
    let (limits, mut reader) = watch::channel(0);
    recorder
        .name(&limits, "limits")
        .name(&reader, "reader")
        .show(&limits, |limit| format!("{limit} kB"));
    let mut applied = Vec::new();
    for limit in [20, 30] {
        limits.send(limit).unwrap(); // a limit is set
        if limit == 20 {
            reader.mark_unchanged(); // a limit is marked
        }
    }
    block_on(reader.changed()).unwrap();
    applied.push(*reader.borrow());
    assert_eq!(applied, [20, 30]); // the limits are compared
}

#[test]
fn the_limit_is_told() {
    let recorder = Recorder::for_test("the_limit_is_told");
    let (limits, mut reader) = watch::channel(0);
    recorder
        .name(&limits, "limits")
        .name(&reader, "reader")
        .show(&limits, |limit| format!("{limit} kB"));
    limits.send(20).unwrap(); // the only limit is set
    let logged = *reader.borrow_and_update(); // a limit is logged
    assert_eq!(logged, 20);
    let is_told = polled(reader.changed()).is_ready(); // nobody tells of the limit
    assert!(is_told, "a limit is told"); // the limit is missed
}
