//! The calls that wait now, as a recorder lists them.

use crate::support::named::{locations, member};
use crate::support::{in_time, poll_once, saved_names};
use std::future::Future;
use std::pin::{Pin, pin};
use std::sync::mpsc;
use std::task::{Context, Waker};
use std::thread;
use yovanelum::{Polled, Recorder, Waiting, block_on, broadcast, named, watch};

/// Polls a future, which is still to wait.
fn wait<F: Future>(future: Pin<&mut F>) {
    let polled = future.poll(&mut Context::from_waker(Waker::noop()));
    assert!(polled.is_pending());
}

/// Who waits in which method of which handle of which channel, since which stamp.
fn listed(recorder: &Recorder) -> Vec<String> {
    let words = |call: &Waiting| {
        let (actor, handle) = (call.actor(), call.handle());
        let (channel, method) = (call.channel(), call.call());
        format!(
            "{actor}: {channel}.{method} of {handle} since {}",
            call.since()
        )
    };
    recorder.waiting().iter().map(words).collect()
}

/// Which of the calls that are listed were woken, in order.
fn woken(recorder: &Recorder) -> Vec<bool> {
    recorder.waiting().iter().map(Waiting::is_woken).collect()
}

fn is_send_and_sync<F: Future + Send + Sync>(_: &F) -> bool {
    true
}

#[test]
fn futures_may_be_sent_and_shared_where_values_may() {
    let (tx, mut rx) = broadcast::channel::<String>(2);
    assert!(is_send_and_sync(&rx.recv()));
    assert!(is_send_and_sync(&tx.closed()));
    let (state, mut state_rx) = watch::channel(String::new());
    assert!(is_send_and_sync(&state.closed()));
    assert!(is_send_and_sync(&state_rx.changed()));
    assert!(is_send_and_sync(&state_rx.wait_for(String::is_empty)));
}

#[test]
fn a_receive_that_waits_is_listed_until_it_ends() {
    let recorder = Recorder::new();
    let _entered = recorder.enter();
    let (tx, mut rx) = broadcast::channel(2);
    tx.send(1).unwrap();
    rx.try_recv().unwrap();
    let line = line!() + 1;
    let mut recv = pin!(named("auditor", rx.recv()));
    assert_eq!(listed(&recorder), [""; 0]);
    wait(recv.as_mut());
    assert_eq!(
        listed(&recorder),
        ["auditor: channel 0.recv of receiver 1 since 2"]
    );
    let location = recorder.waiting()[0].location().unwrap();
    assert_eq!((location.file(), location.line()), (file!(), line));
    let shown = recorder.waiting()[0].to_string();
    assert_eq!(
        shown,
        format!("auditor in `channel 0.recv`, {}:{line}", file!())
    );
    // It still waits after a poll that it waits in.
    wait(recv.as_mut());
    assert_eq!(woken(&recorder), [false]);
    // It is listed while it is woken and wasn't polled again.
    tx.send(2).unwrap();
    assert_eq!(
        listed(&recorder),
        ["auditor: channel 0.recv of receiver 1 since 2"]
    );
    assert_eq!(woken(&recorder), [true]);
    let wanted = format!("{shown}, which was woken and hasn't gone on since");
    assert_eq!(recorder.waiting()[0].to_string(), wanted);
    assert_eq!(poll_once(recv.as_mut()), Some(Ok(2)));
    assert_eq!(listed(&recorder), [""; 0]);
}

#[test]
fn a_call_that_is_polled_again_waits_since_its_first_poll() {
    let recorder = Recorder::new();
    let _entered = recorder.enter();
    let (tx, mut rx) = watch::channel(0);
    let mut ready = pin!(named("worker", rx.wait_for(|value| *value == 2)));
    wait(ready.as_mut());
    // The look at the first value is entry 1.
    assert_eq!(
        listed(&recorder),
        ["worker: channel 0.wait_for of receiver 1 since 1"]
    );
    wait(ready.as_mut());
    wait(ready.as_mut());
    assert_eq!(
        listed(&recorder),
        ["worker: channel 0.wait_for of receiver 1 since 1"]
    );
    tx.send(2).unwrap();
    assert!(poll_once(ready.as_mut()).is_some());
    assert_eq!(listed(&recorder), [""; 0]);
}

#[test]
fn a_future_that_is_dropped_no_longer_waits() {
    let recorder = Recorder::new();
    let _entered = recorder.enter();
    let (tx, mut rx) = broadcast::channel::<u8>(2);
    let (state, mut state_rx) = watch::channel(0);
    let mut stream = Polled::new(tx.subscribe());
    let waits = |recorder: &Recorder| recorder.waiting().len();
    let mut recv = Box::pin(rx.recv());
    let mut closed = Box::pin(tx.closed());
    let mut changed = Box::pin(state_rx.changed());
    let mut state_closed = Box::pin(state.closed());
    wait(recv.as_mut());
    wait(closed.as_mut());
    wait(changed.as_mut());
    wait(state_closed.as_mut());
    let context = Context::from_waker(Waker::noop());
    assert!(stream.poll_recv(&context).is_pending());
    assert_eq!(waits(&recorder), 5);
    // One of them is woken before it is dropped.
    tx.send(1).unwrap();
    drop(recv);
    assert_eq!(waits(&recorder), 4);
    drop(closed);
    assert_eq!(waits(&recorder), 3);
    drop(changed);
    assert_eq!(waits(&recorder), 2);
    drop(state_closed);
    assert_eq!(waits(&recorder), 1);
    drop(stream);
    assert_eq!(waits(&recorder), 0);
}

#[test]
fn calls_are_listed_in_the_order_in_which_they_began_to_wait() {
    let recorder = Recorder::new();
    let _entered = recorder.enter();
    let (prices, mut chart) = broadcast::channel(2);
    let (state, mut worker) = watch::channel(0);
    recorder.name(&prices, "prices").name(&state, "state");
    recorder.name(&chart, "chart").name_handle(&state, "desk");
    let mut changed = pin!(named("worker", worker.changed()));
    wait(changed.as_mut());
    prices.send(1).unwrap();
    assert_eq!(chart.try_recv(), Ok(1));
    let mut recv = pin!(named("screen", chart.recv()));
    wait(recv.as_mut());
    prices.send(2).unwrap();
    let mut closed = pin!(named("owner", state.closed()));
    wait(closed.as_mut());
    let calls: Vec<_> = recorder.waiting().iter().map(Waiting::to_string).collect();
    let starts = [
        "worker in `state.changed`, ",
        "screen in `prices.recv`, ",
        "owner in `state.closed`, ",
    ];
    assert_eq!(calls.len(), starts.len());
    assert!(
        calls
            .iter()
            .zip(starts)
            .all(|(call, start)| call.starts_with(start)),
        "{calls:?}"
    );
    let handles: Vec<_> = recorder
        .waiting()
        .iter()
        .map(|call| call.handle().to_string())
        .collect();
    assert_eq!(handles, ["receiver 1", "chart", "desk"]);
}

#[test]
fn the_names_have_the_calls_that_wait() {
    let recorder = Recorder::new();
    let _entered = recorder.enter();
    let (tx, mut rx) = broadcast::channel(2);
    let (state, state_rx) = watch::channel(0);
    tx.send(1).unwrap();
    rx.try_recv().unwrap();
    let line = line!() + 1;
    let mut recv = pin!(named("auditor", rx.recv()));
    wait(recv.as_mut());
    let mut closed = pin!(named("owner", state.closed()));
    wait(closed.as_mut());
    let names = saved_names(&recorder, "who-waits");
    let at = |line| {
        let wanted = (file!().to_string(), line);
        locations(&names)
            .iter()
            .position(|location| *location == wanted)
            .unwrap()
    };
    let (receive, close) = (at(line), at(line + 2));
    // The thread of the test is actor 0. The last call that was recorded before both has stamp 2.
    let wanted = [
        format!(
            r#"{{"actor": 1, "channel": 0, "handle": 1, "call": "recv", "since": 2, "location": {receive}, "woken": false}}"#
        ),
        format!(
            r#"{{"actor": 2, "channel": 1, "handle": 0, "call": "closed", "since": 2, "location": {close}, "woken": false}}"#
        ),
    ];
    assert_eq!(
        member(&names, "waiting"),
        format!("[{}]", wanted.join(", "))
    );
    // The value wakes the one, and the drop of the last receiver the other.
    let woken = |recorder| {
        let names = saved_names(recorder, "who-was-woken");
        let waiting = member(&names, "waiting");
        let woken = waiting.split(r#""woken": "#).skip(1);
        woken.map(|it| it.starts_with("true")).collect::<Vec<_>>()
    };
    tx.send(3).unwrap();
    assert_eq!(woken(&recorder), [true, false]);
    drop(state_rx);
    assert_eq!(woken(&recorder), [true, true]);
}

#[test]
#[cfg_attr(target_family = "wasm", ignore = "WebAssembly has no threads")]
fn a_thread_that_blocks_is_listed() {
    in_time(|| {
        let recorder = Recorder::new();
        let _entered = recorder.enter();
        let (tx, mut rx) = broadcast::channel(2);
        let auditor = thread::Builder::new().name("auditor".into());
        let auditor = auditor.spawn(move || rx.blocking_recv()).unwrap();
        while recorder.waiting().is_empty() {
            thread::yield_now();
        }
        assert_eq!(
            listed(&recorder),
            ["auditor: channel 0.blocking_recv of receiver 1 since 0"]
        );
        tx.send(1).unwrap();
        assert_eq!(auditor.join().unwrap(), Ok(1));
        assert_eq!(listed(&recorder), [""; 0]);
    });
}

#[test]
fn a_thousand_that_wait_are_listed_and_then_none() {
    let recorder = Recorder::new();
    let _entered = recorder.enter();
    let (tx, rx) = watch::channel(0);
    let mut receivers = vec![rx; 1000];
    let mut futures: Vec<_> = receivers
        .iter_mut()
        .map(|rx| Box::pin(rx.changed()))
        .collect();
    for future in &mut futures {
        wait(future.as_mut());
    }
    let waiting = recorder.waiting();
    assert_eq!(waiting.len(), 1000);
    assert!(waiting.is_sorted_by_key(Waiting::since));
    // Each second one is cancelled, and the others end.
    let mut number = 0;
    futures.retain(|_| {
        number += 1;
        number % 2 == 0
    });
    assert_eq!(recorder.waiting().len(), 500);
    tx.send(1).unwrap();
    for future in futures {
        assert!(block_on(future).is_ok());
    }
    assert!(recorder.waiting().is_empty());
}

#[test]
fn what_waits_on_a_channel_of_another_recorder_or_of_none_is_not_listed() {
    let (recorder, other) = (Recorder::new(), Recorder::new());
    let (unrecorded, mut rx) = broadcast::channel::<u8>(2);
    let entered = other.enter();
    let (_tx, mut other_rx) = broadcast::channel::<u8>(2);
    drop(entered);
    let _entered = recorder.enter();
    let (mut recv, mut other_recv) = (pin!(rx.recv()), pin!(other_rx.recv()));
    wait(recv.as_mut());
    wait(other_recv.as_mut());
    assert_eq!((recorder.waiting().len(), other.waiting().len()), (0, 1));
    drop(unrecorded);
}

#[test]
#[cfg_attr(target_family = "wasm", ignore = "WebAssembly has no threads")]
fn the_list_can_be_asked_for_while_calls_wait_and_end() {
    in_time(|| {
        let recorder = Recorder::new();
        let _entered = recorder.enter();
        recorder.quiet_questions();
        let (tx, rx) = broadcast::channel(64);
        let (over, is_over) = mpsc::channel::<()>();
        let asks = recorder.clone();
        let asking = thread::spawn(move || {
            let mut most = 0;
            while is_over.try_recv() != Err(mpsc::TryRecvError::Disconnected) {
                most = most.max(asks.waiting().len());
            }
            most
        });
        let receivers = [(); 2].map(|()| {
            let mut rx = rx.resubscribe();
            thread::spawn(move || {
                (0..200).for_each(|value| assert_eq!(rx.blocking_recv(), Ok(value)))
            })
        });
        drop(rx);
        for value in 0..200 {
            while !tx.is_empty() {
                thread::yield_now();
            }
            tx.send(value).unwrap();
        }
        receivers
            .into_iter()
            .for_each(|receiver| receiver.join().unwrap());
        drop(over);
        assert!(asking.join().unwrap() <= 2);
        assert!(recorder.waiting().is_empty());
    });
}

/// What the one call that waits says of itself, once a call of another thread waits.
fn blocked(recorder: &Recorder) -> String {
    while recorder.waiting().is_empty() {
        thread::yield_now();
    }
    recorder.waiting()[0].to_string()
}

#[test]
#[cfg_attr(target_family = "wasm", ignore = "WebAssembly has no threads")]
fn a_call_that_waits_for_a_look_says_whose_it_is() {
    type Change = fn(&watch::Sender<u8>);
    let changes: [(&str, Change); 4] = [
        ("send", |state| state.send(2).unwrap()),
        ("send_replace", |state| {
            state.send_replace(2);
        }),
        ("send_modify", |state| state.send_modify(|value| *value = 2)),
        ("send_if_modified", |state| {
            state.send_if_modified(|value| std::mem::replace(value, 2) != 2);
        }),
    ];
    in_time(move || {
        for (method, change) in changes {
            let recorder = Recorder::new();
            let _entered = recorder.enter();
            let (state, rx) = watch::channel(1);
            recorder.name(&state, "state");
            // It ended, and so did the send after it.
            assert_eq!(*rx.borrow(), 1);
            let (looked, look) = (line!(), rx.borrow());
            let sender = thread::Builder::new().name("sender".into());
            let sender = sender.spawn(move || change(&state)).unwrap();
            let said = blocked(&recorder);
            assert_eq!(listed(&recorder).len(), 1);
            assert_eq!(
                recorder.waiting()[0].held_by().unwrap().1.unwrap().line(),
                looked
            );
            let start = format!("sender in `state.{method}`, {}:", file!());
            let me = format!("{:?}", thread::current().id());
            let end = format!(", for a look taken at {}:{looked} by {me}", file!());
            assert!(said.starts_with(&start), "{said}");
            assert!(said.ends_with(&end), "{said}");
            // The lock of the value is no wait for the channel, so nothing wakes it.
            assert_eq!(woken(&recorder), [false]);
            drop(look);
            sender.join().unwrap();
            assert_eq!(listed(&recorder), [""; 0]);
            assert_eq!(*rx.borrow(), 2);
        }
    });
}

#[test]
#[cfg_attr(target_family = "wasm", ignore = "WebAssembly has no threads")]
fn a_look_that_waits_for_a_change_is_listed() {
    in_time(|| {
        let recorder = Recorder::new();
        let _entered = recorder.enter();
        let (state, rx) = watch::channel(1);
        let (go, gone) = mpsc::channel();
        let (began, has_begun) = mpsc::channel();
        let sender = thread::spawn(move || {
            state.send_modify(|value| {
                began.send(()).unwrap();
                gone.recv().unwrap();
                *value = 2;
            });
        });
        has_begun.recv().unwrap();
        let reader = thread::Builder::new().name("reader".into());
        let reader = reader.spawn(move || *rx.borrow()).unwrap();
        let said = blocked(&recorder);
        assert!(said.starts_with("reader in `channel 0.borrow`, "), "{said}");
        assert!(said.ends_with(", for the lock of the value"), "{said}");
        go.send(()).unwrap();
        assert_eq!(reader.join().unwrap(), 2);
        sender.join().unwrap();
        assert_eq!(listed(&recorder), [""; 0]);
    });
}

#[test]
#[cfg_attr(target_family = "wasm", ignore = "WebAssembly has no threads")]
fn of_many_looks_those_that_are_noted_are_told() {
    in_time(|| {
        let recorder = Recorder::new();
        let _entered = recorder.enter();
        let (state, rx) = watch::channel(1);
        let first = rx.borrow();
        let mut others: Vec<_> = (0..7).map(|_| rx.borrow()).collect();
        let (ninth_line, ninth) = (line!(), rx.borrow());
        drop(first);
        let (last_line, last) = (line!(), rx.borrow());
        others.clear();
        thread::scope(|scope| {
            let sender = scope.spawn(|| state.send(2).unwrap());
            // The last look got the place of the first one. The ninth had none.
            let said = blocked(&recorder);
            assert!(said.contains(&format!(":{last_line} by ")), "{said}");
            assert!(!said.contains(&format!(":{ninth_line} by ")), "{said}");
            drop(last);
            drop(ninth);
            sender.join().unwrap();
        });
        let ninth: Vec<_> = (0..9).map(|_| rx.borrow()).collect();
        let last = { ninth }.pop();
        thread::scope(|scope| {
            let sender = scope.spawn(|| state.send(3).unwrap());
            let said = blocked(&recorder);
            assert!(said.ends_with(", for the lock of the value"), "{said}");
            drop(last);
            sender.join().unwrap();
        });
    });
}

#[test]
#[cfg_attr(target_family = "wasm", ignore = "WebAssembly has no threads")]
fn the_names_say_whose_look_a_call_waits_for() {
    in_time(|| {
        let recorder = Recorder::new();
        let _entered = recorder.enter();
        let (state, rx) = watch::channel(1);
        let (looked, look) = (line!(), rx.borrow());
        thread::scope(|scope| {
            let sender = scope.spawn(|| state.send(2).unwrap());
            blocked(&recorder);
            let names = saved_names(&recorder, "who-holds");
            let wanted = (file!().to_string(), looked);
            let at = locations(&names);
            let at = at.iter().position(|location| *location == wanted).unwrap();
            let waiting = member(&names, "waiting");
            let end = format!(r#""held_by": {{"actor": 0, "location": {at}}}}}]"#);
            assert!(waiting.ends_with(&end), "{waiting}");
            drop(look);
            sender.join().unwrap();
        });
    });
}
