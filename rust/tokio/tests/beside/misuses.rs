//! Misuses, by which tokio panics: the crate panics with the same words.

use std::future::Future;
use std::mem;
use std::panic::{self, AssertUnwindSafe};
use std::pin::pin;
use std::sync::Arc;
use std::task::{Context, Poll, Wake, Waker};

/// Returns what a panic says, or that there is none.
fn said(misuse: impl FnOnce()) -> String {
    let Err(panicked) = panic::catch_unwind(AssertUnwindSafe(misuse)) else {
        return "no panic".to_string();
    };
    match panicked.downcast::<String>() {
        Ok(text) => *text,
        Err(panicked) => panicked.downcast::<&str>().unwrap().to_string(),
    }
}

/// A value that panics where it is cloned, dropped or formatted, if it is told to.
enum Bad {
    Cloned,
    Dropped,
    Shown,
}

impl Clone for Bad {
    fn clone(&self) -> Bad {
        assert!(!matches!(self, Bad::Cloned), "this isn't cloned");
        match self {
            Bad::Dropped => Bad::Dropped,
            _ => Bad::Shown,
        }
    }
}

impl std::fmt::Debug for Bad {
    fn fmt(&self, _: &mut std::fmt::Formatter<'_>) -> std::fmt::Result {
        panic!("this isn't shown")
    }
}

impl Drop for Bad {
    fn drop(&mut self) {
        let is_told = matches!(self, Bad::Dropped) && !std::thread::panicking();
        assert!(!is_told, "this isn't dropped");
    }
}

/// A waker that panics where it wakes.
struct NoWake;

impl Wake for NoWake {
    fn wake(self: Arc<Self>) {
        panic!("this isn't woken");
    }
}

fn polled<F: Future>(future: F, waker: &Waker) -> Poll<F::Output> {
    pin!(future).poll(&mut Context::from_waker(waker))
}

/// Polls a future once more than until it is ready.
fn poll_too_often<F: Future>(future: F) {
    let (mut future, mut context) = (pin!(future), Context::from_waker(Waker::noop()));
    assert!(future.as_mut().poll(&mut context).is_ready());
    let _ = future.as_mut().poll(&mut context);
}

/// The misuses of the channels of one crate, each with what its panic says.
macro_rules! misuses_of {
    ($name:ident, $module:path, $blocking_recv:expr) => {
        fn $name() -> Vec<(&'static str, String)> {
            use $module::{broadcast, watch};

            let blocked = || {
                let runtime = tokio::runtime::Builder::new_current_thread();
                let runtime = { runtime }.build().unwrap();
                runtime.block_on(async { $blocking_recv() });
            };
            vec![
                (
                    "a capacity of 0",
                    said(|| drop(broadcast::channel::<u8>(0))),
                ),
                (
                    "a capacity of half",
                    said(|| drop(broadcast::channel::<u8>(usize::MAX / 2 + 1))),
                ),
                (
                    "the greatest capacity",
                    said(|| drop(broadcast::channel::<u8>(usize::MAX))),
                ),
                (
                    "a recv that is polled too often",
                    said(|| {
                        let (tx, mut rx) = broadcast::channel(1);
                        tx.send(1).unwrap();
                        poll_too_often(rx.recv());
                    }),
                ),
                (
                    "a changed that is polled too often",
                    said(|| {
                        let (tx, mut rx) = watch::channel(0);
                        tx.send(1).unwrap();
                        poll_too_often(rx.changed());
                    }),
                ),
                (
                    "a closed that is polled too often",
                    said(|| {
                        let (tx, rx) = watch::channel(0);
                        drop(rx);
                        poll_too_often(tx.closed());
                    }),
                ),
                (
                    "a value that isn't cloned, received",
                    said(|| {
                        let (tx, mut rx) = broadcast::channel(1);
                        let _other = tx.subscribe();
                        tx.send(Bad::Cloned).ok().unwrap();
                        let _ = rx.try_recv();
                    }),
                ),
                (
                    "a value that isn't cloned, waited for",
                    said(|| {
                        let (tx, mut rx) = broadcast::channel(1);
                        tx.send(Bad::Cloned).ok().unwrap();
                        let _ = polled(rx.recv(), Waker::noop());
                    }),
                ),
                (
                    "a value that isn't dropped, overwritten",
                    said(|| {
                        let (tx, rx) = broadcast::channel(1);
                        tx.send(Bad::Dropped).ok().unwrap();
                        let sent =
                            panic::catch_unwind(AssertUnwindSafe(|| drop(tx.send(Bad::Shown))));
                        // tokio's own drop would panic too, by what the first panic has poisoned.
                        mem::forget(rx);
                        panic::resume_unwind(sent.unwrap_err());
                    }),
                ),
                (
                    "a value that isn't dropped, replaced",
                    said(|| {
                        let (tx, _rx) = watch::channel(Bad::Dropped);
                        let _ = tx.send(Bad::Shown);
                    }),
                ),
                (
                    "a change in place that panics",
                    said(|| {
                        let (tx, _rx) = watch::channel(0);
                        tx.send_modify(|_| panic!("this isn't changed"));
                    }),
                ),
                (
                    "a change that may be none and panics",
                    said(|| {
                        let (tx, _rx) = watch::channel(0);
                        tx.send_if_modified(|_| panic!("this isn't changed"));
                    }),
                ),
                (
                    "a handle whose value isn't shown",
                    said(|| {
                        let (tx, _rx) = watch::channel(Bad::Shown);
                        let _ = format!("{tx:?}");
                    }),
                ),
                (
                    "a look whose value isn't shown",
                    said(|| {
                        let (_tx, rx) = watch::channel(Bad::Shown);
                        let _ = format!("{:?}", rx.borrow());
                    }),
                ),
                (
                    "a waker that panics",
                    said(|| {
                        let (tx, mut rx) = watch::channel(0);
                        let waker = Waker::from(Arc::new(NoWake));
                        let mut changed = pin!(rx.changed());
                        let mut context = Context::from_waker(&waker);
                        assert!(changed.as_mut().poll(&mut context).is_pending());
                        tx.send(1).unwrap();
                    }),
                ),
                ("a thread that is blocked within a runtime", said(blocked)),
            ]
        }
    };
}

misuses_of!(theirs, tokio::sync, || drop(
    tokio::sync::oneshot::channel::<u8>().1.blocking_recv()
));
misuses_of!(ours, yovanelum, || {
    yovanelum::set_blocking_check(|| drop(tokio::sync::oneshot::channel::<u8>().1.blocking_recv()));
    drop(yovanelum::broadcast::channel::<u8>(1).1.blocking_recv());
});

/// What tokio says since 1.30 or so, and what 1.24 says.
const NEWER: [(&str, &str); 2] = [
    (
        "broadcast channel capacity cannot be zero",
        "capacity is empty",
    ),
    (
        "broadcast channel capacity exceeded `usize::MAX / 2`",
        "requested capacity too large",
    ),
];

#[test]
fn panics_have_the_same_words() {
    let (theirs, ours) = (theirs(), ours());
    assert!(theirs.len() >= 15);
    for ((misuse, theirs), (_, ours)) in theirs.iter().zip(&ours) {
        println!("{misuse}\n  tokio: {theirs}\n  here:  {ours}");
        assert!(theirs != "no panic", "{misuse}");
        let newer = NEWER.iter().find(|(_, of_1_24)| of_1_24 == theirs);
        let wanted = newer.map_or(theirs.as_str(), |(newer, _)| newer);
        assert_eq!(ours, wanted, "{misuse}");
    }
}
