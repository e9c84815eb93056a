//! Values are dropped before or after tasks are woken, as in tokio. [`storm`](crate::storm) has
//! random scripts.

use std::future::Future;
use std::pin::Pin;
use std::sync::atomic::{AtomicBool, Ordering};
use std::sync::{Arc, Mutex};
use std::task::{Context, Wake, Waker};

/// A value that appends its number where it is dropped within a send, unless it is a clone.
struct Value {
    number: usize,
    is_clone: bool,
    log: Arc<Log>,
}

/// What happened within sends.
#[derive(Default)]
struct Log {
    is_sending: AtomicBool,
    lines: Mutex<Vec<String>>,
}

impl Log {
    fn note(&self, line: String) {
        if self.is_sending.load(Ordering::SeqCst) {
            self.lines.lock().unwrap().push(line);
        }
    }

    /// Notes what happens within this.
    fn within<R>(&self, send: impl FnOnce() -> R) -> R {
        self.is_sending.store(true, Ordering::SeqCst);
        let sent = send();
        self.is_sending.store(false, Ordering::SeqCst);
        sent
    }
}

impl Clone for Value {
    fn clone(&self) -> Value {
        Value {
            number: self.number,
            is_clone: true,
            log: self.log.clone(),
        }
    }
}

impl Drop for Value {
    fn drop(&mut self) {
        if !self.is_clone {
            self.log.note(format!("value {} is dropped", self.number));
        }
    }
}

/// A task that notes when it is woken.
struct Noting(usize, Arc<Log>);

impl Wake for Noting {
    fn wake(self: Arc<Self>) {
        self.1.note(format!("task {} is woken", self.0));
    }
}

/// Polls a future once, as the task of this number.
fn poll_as<F: Future>(future: Pin<&mut F>, task: usize, log: &Arc<Log>) -> bool {
    let waker = Waker::from(Arc::new(Noting(task, log.clone())));
    future.poll(&mut Context::from_waker(&waker)).is_ready()
}

macro_rules! dropped {
    ($of_broadcast:ident, $broadcast:path, $of_watch:ident, $watch:path) => {
        /// What happens in a send that overwrites a value which one receiver has not received,
        /// while three others wait.
        fn $of_broadcast() -> Vec<String> {
            use $broadcast as broadcast;
            let log = Arc::new(Log::default());
            let value = |number| Value {
                number,
                is_clone: false,
                log: log.clone(),
            };
            let (tx, _late) = broadcast::channel(1);
            assert!(tx.send(value(0)).is_ok());
            let mut waiting = [0; 3].map(|_| tx.subscribe());
            let mut futures: Vec<_> = waiting.iter_mut().map(|rx| Box::pin(rx.recv())).collect();
            for (task, future) in futures.iter_mut().enumerate() {
                assert!(!poll_as(future.as_mut(), task, &log));
            }
            assert!(log.within(|| tx.send(value(1))).is_ok());
            log.lines.lock().unwrap().clone()
        }

        /// What happens in the sends of a watch while three receivers wait, which began in another
        /// order than they were created.
        fn $of_watch() -> Vec<String> {
            use $watch as watch;
            let log = Arc::new(Log::default());
            let value = |number| Value {
                number,
                is_clone: false,
                log: log.clone(),
            };
            let (tx, rx) = watch::channel(value(0));
            let mut waiting = [0; 3].map(|_| rx.clone());
            let mut futures: Vec<_> = waiting
                .iter_mut()
                .map(|rx| Box::pin(rx.changed()))
                .collect();
            for task in [1, 2, 0] {
                assert!(!poll_as(futures[task].as_mut(), task, &log));
            }
            assert!(log.within(|| tx.send(value(1))).is_ok());
            for task in [2, 0, 1] {
                assert!(poll_as(futures[task].as_mut(), task, &log));
            }
            drop(futures);
            let mut futures: Vec<_> = waiting
                .iter_mut()
                .map(|rx| Box::pin(rx.changed()))
                .collect();
            for task in [2, 0, 1] {
                assert!(!poll_as(futures[task].as_mut(), task, &log));
            }
            let before = log.within(|| tx.send_replace(value(2)));
            log.note(format!("value {} is returned", before.number));
            log.lines.lock().unwrap().clone()
        }
    };
}

dropped!(
    broadcast_of_tokio,
    tokio::sync::broadcast,
    watch_of_tokio,
    tokio::sync::watch
);
dropped!(
    broadcast_of_this,
    yovanelum::broadcast,
    watch_of_this,
    yovanelum::watch
);

#[test]
fn an_overwritten_value_is_dropped_before_who_waits_is_woken() {
    let happened = broadcast_of_this();
    assert_eq!(happened, broadcast_of_tokio());
    assert_eq!(
        (happened.len(), happened[0].as_str()),
        (4, "value 0 is dropped")
    );
}

/// The same with the tasks that each of two sends has woken in the order of their numbers.
fn by_number(mut happened: Vec<String>) -> Vec<String> {
    happened[..3].sort();
    happened[4..].sort();
    happened
}

/// A watch of tokio wakes the tasks in another order.
#[test]
fn a_value_of_a_watch_is_dropped_once_who_waits_is_woken() {
    let happened = watch_of_this();
    let woken = |tasks: [u32; 3]| tasks.map(|task| format!("task {task} is woken"));
    let wanted = [
        woken([1, 2, 0]).to_vec(),
        vec!["value 0 is dropped".to_string()],
        woken([2, 0, 1]).to_vec(),
    ];
    assert_eq!(happened, wanted.concat());
    assert_eq!(by_number(happened), by_number(watch_of_tokio()));
}
