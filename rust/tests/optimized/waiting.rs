//! Futures that wait: the order in which they are woken, as in tokio, and wakers that panic.

use std::future::Future;
use std::panic::{AssertUnwindSafe, catch_unwind};
use std::pin::Pin;
use std::sync::{Arc, Mutex};
use std::task::{Context, Wake, Waker};
use std::thread;
use yovanelum::{broadcast, watch};

/// Whose wakers were woken, in order.
#[derive(Clone, Default)]
struct Woken(Arc<Mutex<Vec<usize>>>);

struct Waiter {
    number: usize,
    woken: Woken,
    panics: bool,
}

impl Wake for Waiter {
    fn wake(self: Arc<Self>) {
        self.woken.0.lock().unwrap().push(self.number);
        assert!(!self.panics, "in waker {}", self.number);
    }
}

impl Woken {
    fn waker(&self, number: usize, panics: bool) -> Waker {
        Arc::new(Waiter {
            number,
            woken: self.clone(),
            panics,
        })
        .into()
    }

    /// Polls a future with a new waker of this number. It is still to wait.
    fn wait<R>(&self, number: usize, future: &mut Waiting<'_, R>) {
        self.wait_by(self.waker(number, false), future);
    }

    fn wait_by<R>(&self, waker: Waker, future: &mut Waiting<'_, R>) {
        let polled = future.as_mut().poll(&mut Context::from_waker(&waker));
        assert!(polled.is_pending());
    }

    fn numbers(&self) -> Vec<usize> {
        self.0.lock().unwrap().clone()
    }
}

type Waiting<'a, R> = Pin<Box<dyn Future<Output = R> + 'a>>;

/// The futures of these receivers, none of which has been polled.
fn waits_of<X, R>(
    receivers: &mut [X],
    wait: impl for<'a> Fn(&'a mut X) -> Waiting<'a, R>,
) -> Vec<Waiting<'_, R>> {
    receivers.iter_mut().map(wait).collect()
}

/// Lets four futures wait, cancels some, lets some be polled again, and calls `wake`. Returns whose
/// wakers were woken, in order.
fn woken_of_four<'a, R: 'a>(
    mut futures: Vec<Waiting<'a, R>>,
    cancelled: &[usize],
    polled_again: &[usize],
    wake: impl FnOnce(),
) -> Vec<usize> {
    let woken = Woken::default();
    for (number, future) in futures.iter_mut().enumerate() {
        woken.wait(number, future);
    }
    for number in cancelled {
        futures[*number] = Box::pin(std::future::pending());
    }
    for number in polled_again {
        // With a waker of its own, as a task has that was moved.
        woken.wait(*number, &mut futures[*number]);
    }
    wake();
    woken.numbers()
}

/// Who is cancelled, who is polled again, and the order of those who are woken.
const CASES: [(&[usize], &[usize], &[usize]); 7] = [
    (&[], &[], &[0, 1, 2, 3]),
    (&[0], &[], &[1, 2, 3]),
    (&[1], &[], &[0, 2, 3]),
    (&[2, 0], &[], &[1, 3]),
    (&[], &[0], &[0, 1, 2, 3]),
    (&[], &[2, 1, 0, 2], &[0, 1, 2, 3]),
    (&[1, 0, 3], &[2], &[2]),
];

#[test]
fn receivers_of_a_broadcast_are_woken_in_the_order_of_waiting() {
    for (cancelled, polled_again, order) in CASES {
        let (tx, rx) = broadcast::channel(1);
        let mut receivers: Vec<_> = (0..4).map(|_| rx.resubscribe()).collect();
        let futures = waits_of(&mut receivers, |rx| Box::pin(rx.recv()));
        let woken = woken_of_four(futures, cancelled, polled_again, || {
            tx.send(()).unwrap();
        });
        assert_eq!(woken, order, "without {cancelled:?}");
    }
}

#[test]
fn receivers_of_a_watch_are_woken_in_the_order_of_waiting() {
    for (cancelled, polled_again, order) in CASES {
        let (tx, rx) = watch::channel(0);
        let mut receivers = vec![rx; 4];
        let futures = waits_of(&mut receivers, |rx| Box::pin(rx.changed()));
        let woken = woken_of_four(futures, cancelled, polled_again, || tx.send(1).unwrap());
        assert_eq!(woken, order, "without {cancelled:?}");
    }
}

#[test]
fn senders_are_woken_in_the_order_of_waiting() {
    for (cancelled, polled_again, order) in CASES {
        let (tx, rx) = broadcast::channel::<()>(1);
        let mut senders = vec![tx; 4];
        let futures = waits_of(&mut senders, |tx| Box::pin(tx.closed()));
        let woken = woken_of_four(futures, cancelled, polled_again, || drop(rx));
        assert_eq!(woken, order, "without {cancelled:?}");
    }
}

#[test]
fn a_future_that_was_woken_waits_at_the_end_again() {
    let (tx, rx) = broadcast::channel(1);
    let mut receivers: Vec<_> = (0..3).map(|_| rx.resubscribe()).collect();
    for round in 0..3 {
        let woken = Woken::default();
        let mut futures = waits_of(&mut receivers, |rx| Box::pin(rx.recv()));
        for number in 0..3 {
            // The first to wait is another in each round.
            let number = (number + round) % 3;
            woken.wait(number, &mut futures[number]);
        }
        tx.send(()).unwrap();
        for future in &mut futures {
            let polled = future
                .as_mut()
                .poll(&mut Context::from_waker(Waker::noop()));
            assert!(polled.is_ready());
        }
        assert_eq!(woken.numbers(), [round, (round + 1) % 3, (round + 2) % 3]);
    }
}

/// The message of a panic.
fn message(panicked: Box<dyn std::any::Any + Send>) -> String {
    *panicked.downcast::<String>().unwrap()
}

/// Lets five futures wait, of which the wakers of two panic. Returns the message of the call that
/// wakes them.
fn message_of_wake<R>(mut futures: Vec<Waiting<'_, R>>, wake: impl FnOnce()) -> String {
    let woken = Woken::default();
    for (number, future) in futures.iter_mut().enumerate() {
        woken.wait_by(woken.waker(number, number % 3 == 1), future);
    }
    let panicked = catch_unwind(AssertUnwindSafe(wake)).unwrap_err();
    assert_eq!(woken.numbers(), [0, 1, 2, 3, 4]);
    message(panicked)
}

#[test]
#[cfg_attr(target_family = "wasm", ignore = "WebAssembly ends at the first panic")]
fn a_waker_that_panics_leaves_nobody_asleep() {
    let (tx, rx) = broadcast::channel(1);
    let mut receivers: Vec<_> = (0..5).map(|_| rx.resubscribe()).collect();
    let futures = waits_of(&mut receivers, |rx| Box::pin(rx.recv()));
    let send = || drop(tx.send(()));
    assert_eq!(message_of_wake(futures, send), "in waker 1");
    let (tx, rx) = watch::channel(0);
    let mut receivers = vec![rx; 5];
    type Change = fn(&watch::Sender<u32>);
    let changes: [Change; 3] = [
        |tx| tx.send(1).unwrap(),
        |tx| assert_eq!(tx.send_replace(2), 1),
        |tx| tx.send_modify(|value| *value = 1),
    ];
    for change in changes {
        let futures = waits_of(&mut receivers, |rx| Box::pin(rx.changed()));
        assert_eq!(message_of_wake(futures, || change(&tx)), "in waker 1");
        for rx in &mut receivers {
            rx.mark_unchanged();
        }
    }
    let futures = waits_of(&mut receivers, |rx| Box::pin(rx.changed()));
    assert_eq!(message_of_wake(futures, || drop(tx)), "in waker 1");
}

/// A thread that panics drops its sender, and a waker panics then too. That is the end of neither
/// the process nor the others' sleep.
#[test]
#[cfg_attr(target_family = "wasm", ignore = "WebAssembly ends at the first panic")]
fn a_waker_that_panics_during_a_panic_leaves_nobody_asleep() {
    let (tx, rx) = broadcast::channel::<()>(1);
    let mut receivers = [rx.resubscribe(), rx];
    let woken = Woken::default();
    let mut futures = waits_of(&mut receivers, |rx| Box::pin(rx.recv()));
    for (number, future) in futures.iter_mut().enumerate() {
        woken.wait_by(woken.waker(number, number == 0), future);
    }
    let thread = thread::spawn(move || {
        let _tx = tx;
        panic!("{}", "before the drop");
    });
    assert_eq!(message(thread.join().unwrap_err()), "before the drop");
    assert_eq!(woken.numbers(), [0, 1]);
}
