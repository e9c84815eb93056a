//! Functions for the texts of values, and names: which channels they may be for, and how long they
//! live.

use crate::support::in_time;
use std::panic::{AssertUnwindSafe, catch_unwind};
use std::sync::Arc;
use yovanelum::broadcast::error::RecvError;
use yovanelum::{Handle, Recorder, block_on, broadcast, watch};

#[test]
#[cfg_attr(target_family = "wasm", ignore = "WebAssembly has no threads")]
fn a_function_that_holds_a_sender_keeps_its_broadcast_open_no_longer_than_the_recorder_lives() {
    in_time(|| {
        let recorder = Recorder::for_test("function_that_holds_a_sender");
        let (tx, mut rx) = broadcast::channel(2);
        let asks = tx.clone();
        recorder.show(&tx, move |value: &u32| {
            format!("{value} for {}", asks.receiver_count())
        });
        tx.send(5).unwrap();
        drop(tx);
        assert_eq!(rx.try_recv(), Ok(5));
        let names = recorder.names();
        assert!(names.contains(r#"{"0": "5 for 1"}"#), "{names}");
        drop(recorder);
        assert_eq!(block_on(rx.recv()), Err(RecvError::Closed));
    });
}

#[test]
#[cfg_attr(target_family = "wasm", ignore = "WebAssembly has no threads")]
fn a_function_that_holds_a_weak_sender_keeps_no_broadcast_open() {
    in_time(|| {
        let recorder = Recorder::for_test("function_that_holds_a_weak_sender");
        let (tx, mut rx) = broadcast::channel(2);
        let asks = tx.downgrade();
        recorder.show(&tx, move |value: &u32| {
            format!("{value} of {}", asks.strong_count())
        });
        tx.send(5).unwrap();
        drop(tx);
        assert_eq!(rx.try_recv(), Ok(5));
        assert_eq!(block_on(rx.recv()), Err(RecvError::Closed));
        let names = recorder.names();
        assert!(names.contains(r#"{"0": "5 of 1"}"#), "{names}");
    });
}

#[test]
#[cfg_attr(target_family = "wasm", ignore = "WebAssembly has no threads")]
fn a_function_that_holds_an_end_of_a_watch_keeps_it_open_no_longer_than_the_recorder_lives() {
    in_time(|| {
        let recorder = Recorder::new();
        let entered = recorder.enter();
        let (level, mut level_rx) = watch::channel(0);
        let (state, state_rx) = watch::channel(0);
        let sender = level.clone();
        recorder.show(&level, move |value| format!("{value} by {sender:?}"));
        recorder.show(&state, move |value| format!("{value} for {state_rx:?}"));
        drop((level, recorder));
        // The guard holds the recorder too.
        assert!(level_rx.has_changed().is_ok() && !state.is_closed());
        drop(entered);
        assert!(block_on(level_rx.changed()).is_err());
        block_on(state.closed());
    });
}

#[test]
fn a_function_lives_as_long_as_its_channel_and_its_recorder() {
    let recorder = Recorder::new();
    let (held, clone) = (Arc::new(()), recorder.clone());
    let show = |tx: &broadcast::Sender<u32>| {
        let holds = held.clone();
        clone.show(tx, move |value| format!("{value} {holds:?}"));
    };
    let entered = recorder.enter();
    let (first, second) = (broadcast::Sender::new(1), broadcast::Sender::new(1));
    drop((entered, recorder));
    show(&first);
    show(&second);
    let _rx = second.subscribe();
    second.send(5).unwrap();
    assert_eq!(Arc::strong_count(&held), 3);
    drop(first);
    assert_eq!(Arc::strong_count(&held), 2);
    // A channel keeps the function that it has.
    show(&second);
    assert_eq!(Arc::strong_count(&held), 2);
    assert!(clone.names().contains(r#"{"1": {"0": "5 ()"}}"#));
    drop(clone);
    assert_eq!(Arc::strong_count(&held), 1);
    second.send(6).unwrap();
    assert!(
        Recorder::of(&second)
            .unwrap()
            .names()
            .contains(r#"{"0": "5 ()"}"#)
    );
}

/// Asserts that this recorder says of a channel that it belongs to another one, or to none.
fn is_anothers<H: Handle<Value = u32>>(recorder: &Recorder, handle: &H) {
    type Call<'a> = &'a dyn Fn() -> &'a Recorder;
    let calls: [Call<'_>; 2] = [&|| recorder.name(handle, "prices"), &|| {
        recorder.show(handle, u32::to_string)
    }];
    for call in calls {
        let panicked = catch_unwind(AssertUnwindSafe(call)).unwrap_err();
        let message = panicked.downcast::<String>().unwrap();
        let owner = match Recorder::of(handle) {
            Some(_) => "belongs to another recorder",
            None => "belongs to no recorder",
        };
        assert!(message.contains(owner), "{message}");
    }
}

#[test]
#[cfg_attr(target_family = "wasm", ignore = "WebAssembly ends at the first panic")]
fn a_channel_of_another_recorder_gets_no_name_and_no_texts() {
    let (recorder, other) = (Recorder::new(), Recorder::new());
    let _entered = recorder.enter();
    let (tx, _rx) = broadcast::channel(2);
    let (level, level_rx) = watch::channel(0);
    is_anothers(&other, &tx);
    is_anothers(&other, &tx.downgrade());
    is_anothers(&other, &level);
    is_anothers(&other, &level_rx);
    tx.send(5).unwrap();
    level.send(5).unwrap();
    let names = recorder.names();
    assert!(
        names.contains("\"channels\": {},\n  \"values\": {},\n  \"locations\""),
        "{names}"
    );
    // One of a channel that belongs to none would be lost too, unless the recorder is off.
    let off = Recorder::off();
    let entered = off.enter();
    let (unrecorded, _unrecorded_rx) = broadcast::channel(2);
    drop(entered);
    is_anothers(&recorder, &unrecorded);
    off.name(&unrecorded, "prices")
        .show(&unrecorded, u32::to_string);
    // Its own recorder takes both, from a clone too.
    recorder
        .clone()
        .name(&tx, "prices")
        .show(&tx, u32::to_string);
    tx.send(6).unwrap();
    assert!(recorder.names().contains(r#"{"0": "prices"}"#));
    assert!(recorder.names().contains(r#"{"0": {"1": "6"}}"#));
}
