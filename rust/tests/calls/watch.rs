//! What tokio's documentation says about `sync::watch`.

use crate::support::poll_once;
use std::cell::Cell;
use std::panic::{AssertUnwindSafe, RefUnwindSafe, UnwindSafe, catch_unwind};
use std::thread;
use yovanelum::watch::{self, error::SendError};
use yovanelum::{Recorder, block_on};

#[test]
fn the_first_value_is_seen_and_the_next_is_not() {
    let (tx, mut rx) = watch::channel("one");
    assert!(!rx.has_changed().unwrap());
    assert!(poll_once(rx.changed()).is_none());
    tx.send("two").unwrap();
    assert!(rx.has_changed().unwrap());
    assert_eq!(*rx.borrow(), "two");
    assert!(rx.has_changed().unwrap());
    assert!(poll_once(rx.changed()).unwrap().is_ok());
    assert!(!rx.has_changed().unwrap());
}

#[test]
fn the_same_value_is_a_change() {
    let (tx, mut rx) = watch::channel(1);
    tx.send(1).unwrap();
    assert!(rx.has_changed().unwrap());
    assert!(rx.borrow_and_update().has_changed());
    assert!(!rx.has_changed().unwrap());
}

#[test]
fn only_the_last_value_is_seen() {
    let (tx, mut rx) = watch::channel(0);
    for value in 1..=3 {
        tx.send(value).unwrap();
    }
    block_on(rx.changed()).unwrap();
    assert_eq!(*rx.borrow_and_update(), 3);
    assert!(poll_once(rx.changed()).is_none());
}

#[test]
fn a_closed_channel_tells_its_last_value_once() {
    let (tx, mut rx) = watch::channel(0);
    let other = tx.clone();
    tx.send(1).unwrap();
    drop(tx);
    assert!(rx.has_changed().unwrap());
    drop(other);
    assert!(rx.has_changed().is_err());
    assert!(block_on(rx.changed()).is_ok());
    assert!(block_on(rx.changed()).is_err());
    assert_eq!(*rx.borrow(), 1);
}

#[test]
fn a_subscribed_receiver_has_seen_the_value_and_a_clone_what_its_source_has() {
    let (tx, rx) = watch::channel(0);
    tx.send(1).unwrap();
    let subscribed = tx.subscribe();
    let cloned = rx.clone();
    assert!(!subscribed.has_changed().unwrap());
    assert!(cloned.has_changed().unwrap());
}

#[test]
fn marks() {
    let (_tx, mut rx) = watch::channel(0);
    rx.mark_changed();
    assert!(rx.has_changed().unwrap());
    assert!(rx.borrow().has_changed());
    rx.mark_unchanged();
    assert!(!rx.has_changed().unwrap());
    assert!(!rx.borrow().has_changed());
}

#[test]
fn a_send_without_receivers_gives_the_value_back() {
    let (tx, rx) = watch::channel(0);
    drop(rx);
    assert_eq!(tx.send(1), Err(SendError(1)));
    assert_eq!(*tx.borrow(), 0);
    assert_eq!(tx.send_replace(2), 0);
    tx.send_modify(|value| *value += 1);
    assert_eq!(*tx.subscribe().borrow(), 3);
}

#[test]
fn a_silent_change_is_seen_by_who_looks() {
    let (tx, mut rx) = watch::channel(0);
    assert!(!tx.send_if_modified(|value| {
        *value = 5;
        false
    }));
    assert!(!rx.has_changed().unwrap());
    assert_eq!(*rx.borrow(), 5);
    assert!(poll_once(rx.changed()).is_none());
    assert!(tx.send_if_modified(|_| true));
    assert!(rx.has_changed().unwrap());
}

#[test]
#[cfg_attr(target_family = "wasm", ignore = "WebAssembly ends at the first panic")]
fn a_closure_that_panics_changes_silently() {
    let recorder = Recorder::new();
    let _entered = recorder.enter();
    let (tx, rx) = watch::channel(0);
    let panicked = catch_unwind(AssertUnwindSafe(|| {
        tx.send_modify(|value| {
            *value = 9;
            panic!("in the closure");
        })
    }));
    assert!(panicked.is_err());
    assert!(!rx.has_changed().unwrap());
    assert_eq!(*rx.borrow(), 9);
    assert!(
        recorder
            .journal()
            .unwrap()
            .contains("modify 0 1 no = told no")
    );
    tx.send(1).unwrap();
    assert_eq!(*rx.borrow(), 1);
}

#[test]
#[cfg_attr(target_family = "wasm", ignore = "WebAssembly has no threads")]
fn closed_waits_until_no_receiver_is_alive() {
    let (tx, rx) = watch::channel(0);
    assert!(!tx.is_closed());
    assert_eq!(poll_once(tx.closed()), None);
    let dropping = thread::spawn(move || drop(rx));
    block_on(tx.closed());
    dropping.join().unwrap();
    assert!(tx.is_closed());
}

#[test]
fn counts_and_channels() {
    let (tx, rx) = watch::channel(0);
    let (other_tx, other_rx) = watch::channel(0);
    let (second_tx, second_rx) = (tx.clone(), rx.clone());
    assert_eq!((tx.sender_count(), tx.receiver_count()), (2, 2));
    assert!(tx.same_channel(&second_tx) && !tx.same_channel(&other_tx));
    assert!(rx.same_channel(&second_rx) && !rx.same_channel(&other_rx));
    drop((second_tx, second_rx));
    assert_eq!((tx.sender_count(), tx.receiver_count()), (1, 1));
}

#[test]
fn senders_made_alone() {
    let tx = watch::Sender::new(7);
    assert_eq!(tx.receiver_count(), 0);
    assert_eq!(*tx.subscribe().borrow(), 7);
    assert_eq!(*watch::Sender::<u8>::default().borrow(), 0);
}

#[test]
fn a_wait_for_a_value_passes_over_others() {
    let (tx, mut rx) = watch::channel(0);
    let asked = Cell::new(0);
    assert!(
        poll_once(rx.wait_for(|value| {
            asked.set(asked.get() + 1);
            *value > 2
        }))
        .is_none()
    );
    assert_eq!(asked.get(), 1);
    tx.send(1).unwrap();
    assert!(poll_once(rx.wait_for(|value| *value > 2)).is_none());
    assert!(!rx.has_changed().unwrap());
    tx.send(3).unwrap();
    {
        let found = poll_once(rx.wait_for(|value| *value > 2)).unwrap().unwrap();
        assert_eq!((*found, found.has_changed()), (3, true));
    }
    assert!(!rx.has_changed().unwrap());
    assert_eq!(
        *poll_once(rx.wait_for(|value| *value > 2)).unwrap().unwrap(),
        3
    );
    drop(tx);
    assert!(poll_once(rx.wait_for(|value| *value > 3)).unwrap().is_err());
    assert_eq!(
        *poll_once(rx.wait_for(|value| *value > 2)).unwrap().unwrap(),
        3
    );
}

#[test]
fn texts_of_errors_and_handles() {
    let (tx, mut rx) = watch::channel(3);
    // As tokio 1.53 formats them.
    let shared = "shared: Shared { value: RwLock(RwLock { data: 3, poisoned: false, .. }), version: Version(0), is_closed: false, ref_count_rx: 1 }";
    assert_eq!(format!("{tx:?}"), format!("Sender {{ {shared} }}"));
    assert_eq!(
        format!("{rx:?}"),
        format!("Receiver {{ {shared}, version: Version(0) }}")
    );
    assert_eq!(
        format!("{:?}", rx.borrow()),
        "Ref { inner: 3, has_changed: false }"
    );
    drop(tx);
    let error = block_on(rx.changed()).unwrap_err();
    assert_eq!(
        (error.to_string(), format!("{error:?}")),
        ("channel closed".into(), "RecvError(())".into())
    );
    assert_eq!(
        (SendError(1).to_string(), format!("{:?}", SendError(1))),
        ("channel closed".into(), "SendError { .. }".into())
    );
}

#[test]
fn values_need_be_neither_clone_nor_static() {
    struct Borrows<'a>(&'a str);
    let text = String::from("a b");
    let (tx, rx) = watch::channel(Borrows(&text));
    tx.send(Borrows(&text[2..])).unwrap();
    assert_eq!(rx.borrow().0, "b");
}

#[test]
fn handles_and_futures_cross_threads_as_tokios_do() {
    fn send<T: Send>(_: &T) {}
    fn sync<T: Sync>(_: &T) {}
    let (tx, mut rx) = watch::channel(0);
    send(&tx);
    sync(&tx);
    send(&rx);
    sync(&rx);
    send(&tx.closed());
    send(&rx.changed());
    send(&rx.wait_for(|_| true));
}

#[test]
fn handles_are_unwind_safe_for_values_of_all_types() {
    fn unwind_safe<T: UnwindSafe + RefUnwindSafe>(_: &T) {}
    let (tx, rx) = watch::channel(Cell::new(0));
    unwind_safe(&tx);
    unwind_safe(&rx);
}
