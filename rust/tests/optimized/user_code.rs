//! User code that runs during a call: clones, drops and texts of values, and wakers. None of it
//! runs while the channel is locked, except closures that change a watch's value and the texts of
//! what they changed.

use crate::support::in_time;
use std::future::Future;
use std::panic::{AssertUnwindSafe, catch_unwind};
use std::pin::pin;
use std::sync::atomic::{AtomicU32, Ordering};
use std::sync::{Arc, Mutex, OnceLock};
use std::task::{Context, Wake, Waker};
use yovanelum::broadcast::{self, Receiver, Sender};
use yovanelum::watch::error::SendError;
use yovanelum::{Recorder, block_on, watch};

type Line = (Sender<Talks>, Mutex<Receiver<Talks>>);

/// A value that uses its own channel when it is cloned and when it is dropped.
struct Talks(u32, Arc<OnceLock<Line>>);

impl Talks {
    fn use_channel(&self) {
        if let Some((tx, rx)) = self.1.get() {
            assert!(tx.receiver_count() > 0);
            let _ = tx.clone();
            let _ = tx.subscribe();
            assert!(tx.len() <= 2);
            if let Ok(rx) = rx.try_lock() {
                let _ = rx.len();
            }
        }
    }
}

impl Clone for Talks {
    fn clone(&self) -> Talks {
        self.use_channel();
        Talks(self.0, self.1.clone())
    }
}

impl Drop for Talks {
    fn drop(&mut self) {
        self.use_channel();
    }
}

#[test]
fn values_may_use_their_channel_where_they_are_cloned_and_dropped() {
    let line = Arc::new(OnceLock::new());
    let (tx, rx) = broadcast::channel(2);
    let mut own = tx.subscribe();
    assert!(line.set((tx.clone(), Mutex::new(rx))).is_ok());
    let value = |number| Talks(number, line.clone());
    // Cloned, and dropped by the last receiver.
    tx.send(value(1))
        .unwrap_or_else(|_| panic!("two receivers"));
    assert_eq!(own.try_recv().map(|value| value.0).ok(), Some(1));
    assert_eq!(
        line.get()
            .unwrap()
            .1
            .lock()
            .unwrap()
            .try_recv()
            .map(|value| value.0)
            .ok(),
        Some(1)
    );
    // Evicted by a send.
    for number in 2..6 {
        tx.send(value(number))
            .unwrap_or_else(|_| panic!("two receivers"));
    }
    // Dropped with a receiver.
    drop(own);
}

/// A value whose clone receives the same value by other receivers, if it is told to.
struct Receives(Arc<Mutex<Vec<Receiver<Receives>>>>);

impl Clone for Receives {
    fn clone(&self) -> Receives {
        let next = self.0.lock().unwrap().pop();
        if let Some(mut rx) = next {
            assert!(rx.try_recv().is_ok());
        }
        Receives(self.0.clone())
    }
}

/// A waker that counts.
#[derive(Default)]
struct Counts(AtomicU32);

impl Wake for Counts {
    fn wake(self: Arc<Self>) {
        self.0.fetch_add(1, Ordering::SeqCst);
    }
}

/// A value whose drop panics.
#[derive(Clone)]
struct Falls;

impl Drop for Falls {
    fn drop(&mut self) {
        panic!("a value falls");
    }
}

#[test]
#[cfg_attr(target_family = "wasm", ignore = "WebAssembly ends at the first panic")]
fn who_waits_is_woken_where_the_drop_of_the_overwritten_value_panics() {
    let woken = Arc::new(Counts::default());
    let (tx, late) = broadcast::channel(1);
    assert!(tx.send(Some(Falls)).is_ok());
    let mut waiting = tx.subscribe();
    let mut received = pin!(waiting.recv());
    let waker = Waker::from(woken.clone());
    let mut context = Context::from_waker(&waker);
    assert!(received.as_mut().poll(&mut context).is_pending());
    let sent = catch_unwind(AssertUnwindSafe(|| tx.send(None).is_ok()));
    assert_eq!(sent.map_err(message), Err("a value falls".to_string()));
    assert_eq!(woken.0.load(Ordering::SeqCst), 1);
    assert_eq!((late.len(), tx.len()), (2, 1));
}

#[test]
#[cfg_attr(target_family = "wasm", ignore = "WebAssembly has no threads")]
fn a_value_whose_clone_receives_the_same_value_waits_for_nobody() {
    in_time(|| {
        let (tx, mut rx) = broadcast::channel(2);
        let others = Arc::new(Mutex::new(vec![tx.subscribe(), tx.subscribe()]));
        assert!(tx.send(Receives(others.clone())).is_ok());
        assert!(rx.try_recv().is_ok());
        assert!(others.lock().unwrap().is_empty());
        assert!(tx.is_empty());
    });
}

#[test]
fn a_text_may_use_its_channel() {
    let recorder = Recorder::new();
    let _entered = recorder.enter();
    let (tx, mut rx) = broadcast::channel(2);
    let asks = tx.clone();
    recorder.show(&tx, move |value: &u32| {
        format!("{value} for {}", asks.receiver_count())
    });
    tx.send(5).unwrap();
    assert_eq!(rx.try_recv(), Ok(5));
    assert!(
        recorder.names().contains(r#""0": "5 for 1""#),
        "{}",
        recorder.names()
    );
}

/// A value that looks at its watch when it is dropped.
struct Looks(Arc<OnceLock<watch::Receiver<Option<Looks>>>>);

impl Drop for Looks {
    fn drop(&mut self) {
        if let Some(rx) = self.0.get() {
            assert!(rx.borrow().is_none());
        }
    }
}

#[test]
fn a_replaced_value_is_dropped_where_the_watch_is_not_locked() {
    let line = Arc::new(OnceLock::new());
    let (tx, rx) = watch::channel(Some(Looks(line.clone())));
    assert!(line.set(rx).is_ok());
    assert!(tx.send(None).is_ok());
    drop(tx.send_replace(None));
}

/// The three ways to give a watch a new value.
const CHANGES: [fn(&watch::Sender<u32>, u32); 3] = [
    |tx, value| tx.send(value).unwrap(),
    |tx, value| {
        tx.send_replace(value);
    },
    |tx, value| tx.send_modify(|now| *now = value),
];

/// Changes the value while the receiver waits with this waker.
fn change_of_who_waits(
    rx: &mut watch::Receiver<u32>,
    waker: Arc<impl Wake + Send + Sync + 'static>,
    change: impl FnOnce(),
) {
    let waker = Waker::from(waker);
    let mut changed = pin!(rx.changed());
    assert!(
        changed
            .as_mut()
            .poll(&mut Context::from_waker(&waker))
            .is_pending()
    );
    change();
    assert!(
        changed
            .as_mut()
            .poll(&mut Context::from_waker(&waker))
            .is_ready()
    );
}

/// A waker that looks at the watch.
struct LooksWhenWoken(watch::Receiver<u32>, Mutex<Vec<u32>>);

impl Wake for LooksWhenWoken {
    fn wake(self: Arc<Self>) {
        self.1.lock().unwrap().push(*self.0.borrow());
    }
}

#[test]
#[cfg_attr(target_family = "wasm", ignore = "WebAssembly has no threads")]
fn a_waker_may_look_at_its_watch_and_sees_the_new_value() {
    let saw = in_time(|| {
        let (tx, mut rx) = watch::channel(0);
        let looks = Arc::new(LooksWhenWoken(rx.clone(), Mutex::default()));
        for (change, value) in CHANGES.iter().zip(1..) {
            change_of_who_waits(&mut rx, looks.clone(), || change(&tx, value));
        }
        looks.1.lock().unwrap().clone()
    });
    assert_eq!(saw, [1, 2, 3]);
}

/// A waker that panics.
struct Panics;

impl Wake for Panics {
    fn wake(self: Arc<Self>) {
        panic!("in the waker");
    }
}

#[test]
#[cfg_attr(target_family = "wasm", ignore = "WebAssembly ends at the first panic")]
fn a_waker_that_panics_leaves_the_new_value() {
    let (tx, mut rx) = watch::channel(0);
    for (change, value) in CHANGES.iter().zip(1..) {
        change_of_who_waits(&mut rx, Arc::new(Panics), || {
            assert!(catch_unwind(AssertUnwindSafe(|| change(&tx, value))).is_err());
        });
        assert_eq!(*tx.borrow(), value);
    }
}

#[test]
#[cfg_attr(target_family = "wasm", ignore = "WebAssembly has no threads")]
fn a_send_without_receivers_waits_for_nobody_who_looks() {
    in_time(|| {
        let recorder = Recorder::new();
        let _entered = recorder.enter();
        let (tx, rx) = watch::channel(0);
        drop(rx);
        let looked = tx.borrow();
        assert_eq!(tx.send(1), Err(SendError(1)));
        assert_eq!(*looked, 0);
        let journal = recorder.journal().unwrap();
        assert!(
            journal.contains(" 0 0 send 0 1 = no-receivers 1\n"),
            "{journal}"
        );
    });
}

/// The message of a panic.
fn message(panicked: Box<dyn std::any::Any + Send>) -> String {
    match panicked.downcast::<&str>() {
        Ok(message) => message.to_string(),
        Err(panicked) => *panicked.downcast::<String>().unwrap(),
    }
}

#[test]
#[cfg_attr(target_family = "wasm", ignore = "WebAssembly ends at the first panic")]
fn receivers_are_told_of_a_change_whose_text_panics() {
    let recorder = Recorder::new();
    let _entered = recorder.enter();
    let (tx, mut rx) = watch::channel(0);
    recorder.show(&tx, |value| match value {
        0 => "none".to_string(),
        _ => panic!("in the text"),
    });
    let change = |is_wrong: bool| {
        let changed = catch_unwind(AssertUnwindSafe(|| {
            tx.send_modify(|value| {
                *value += 1;
                assert!(!is_wrong, "in the closure");
            })
        }));
        message(changed.unwrap_err())
    };
    let woken = Arc::new(LooksWhenWoken(rx.clone(), Mutex::default()));
    change_of_who_waits(&mut rx, woken.clone(), || {
        assert_eq!(change(false), "in the text")
    });
    assert_eq!(*woken.1.lock().unwrap(), [1]);
    // The panic of the closure is the one that is resumed.
    assert_eq!(change(true), "in the closure");
    assert_eq!((*rx.borrow(), rx.has_changed().unwrap()), (2, false));
    let journal = recorder.journal().unwrap();
    assert!(journal.contains("modify 0 1 yes = told yes"), "{journal}");
    assert!(journal.contains("modify 0 2 no = told no"), "{journal}");
}

#[test]
#[cfg_attr(target_family = "wasm", ignore = "WebAssembly has no threads")]
fn a_closure_or_a_text_that_uses_its_watch_is_a_panic_and_waits_for_nobody() {
    in_time(|| {
        let recorder = Recorder::new();
        let _entered = recorder.enter();
        let (tx, rx) = watch::channel(0);
        let other = rx.clone();
        let uses: [&dyn Fn(); 3] = [
            &|| assert_eq!(*rx.borrow(), 0),
            &|| tx.send(5).unwrap(),
            &|| tx.send_modify(|value| *value = 5),
        ];
        for wrong in uses {
            let panicked = catch_unwind(AssertUnwindSafe(|| tx.send_modify(|_| wrong())));
            assert!(message(panicked.unwrap_err()).contains("uses that watch"));
        }
        assert!(!rx.has_changed().unwrap());
        recorder.show(&tx, move |value| format!("{value} at {}", *other.borrow()));
        let panicked = catch_unwind(AssertUnwindSafe(|| tx.send_modify(|value| *value = 1)));
        assert!(message(panicked.unwrap_err()).contains("uses that watch"));
        assert!(rx.has_changed().unwrap());
        assert_eq!(*rx.borrow(), 1);
        // The text of a sent value is made before the watch is locked.
        tx.send(2).unwrap();
        let names = recorder.names();
        assert!(names.contains(r#"": "2 at 1""#), "{names}");
    });
}

#[test]
#[cfg_attr(target_family = "wasm", ignore = "WebAssembly has no threads")]
fn a_text_of_the_first_value_that_sends_on_its_watch_is_a_panic_and_waits_for_nobody() {
    in_time(|| {
        let recorder = Recorder::new();
        let _entered = recorder.enter();
        let (tx, rx) = watch::channel(0);
        let sends = tx.clone();
        let shown = catch_unwind(AssertUnwindSafe(|| {
            recorder.show(&tx, move |value| format!("{value} {:?}", sends.send(5)));
        }));
        assert!(message(shown.unwrap_err()).contains("uses that watch"));
        // The watch is as it was, and takes another function.
        recorder.show(&tx, |value| format!("{value} EUR"));
        tx.send(1).unwrap();
        assert_eq!(*rx.borrow(), 1);
        let names = recorder.names();
        assert!(
            names.contains(r#"{"0": {"0": "0 EUR", "1": "1 EUR"}}"#),
            "{names}"
        );
    });
}

#[test]
#[cfg_attr(target_family = "wasm", ignore = "WebAssembly has no threads")]
fn a_closure_of_wait_for_that_sends_on_its_watch_is_a_panic_and_waits_for_nobody() {
    in_time(|| {
        let (tx, mut rx) = watch::channel(0);
        let waited = catch_unwind(AssertUnwindSafe(|| {
            let _ = block_on(rx.wait_for(|_| tx.send(5).is_ok()));
        }));
        assert!(message(waited.unwrap_err()).contains("uses that watch"));
        tx.send(1).unwrap();
        assert_eq!(*block_on(rx.wait_for(|value| *value == 1)).unwrap(), 1);
    });
}
