//! Right programs, which no order lets fail.

use super::{ended, joined, on_one_thread, on_two_workers, spawn, work};
use std::io::{Read, Write};
use std::net;
use std::sync::atomic::{AtomicBool, Ordering};
use std::sync::{Arc, Barrier, Mutex};
use std::time::Duration;
use tokio::task::yield_now;
use tokio::time::timeout;
use yovanelum::broadcast::error::RecvError;
use yovanelum::{broadcast, named, watch};

/// A server sends three values, and its client waits for each no longer than this.
async fn served_within(limit: Duration) {
    let (tx, mut rx) = broadcast::channel(4);
    let server = tokio::spawn(named("server", async move {
        for value in 0..3 {
            tx.send(value).unwrap();
            yield_now().await;
        }
    }));
    let client = tokio::spawn(named("client", async move {
        for _ in 0..3 {
            timeout(limit, rx.recv()).await.expect("in time").unwrap();
        }
    }));
    ended(server).await;
    ended(client).await;
}

/// A paused clock: it goes on only where nobody has anything to do.
pub fn paused_clock() {
    let mut runtime = tokio::runtime::Builder::new_current_thread();
    let runtime = runtime.enable_time().start_paused(true).build().unwrap();
    runtime.block_on(named("test", served_within(Duration::from_secs(5))));
}

/// A minute doesn't pass in a run of some milliseconds, also on a machine that is busy.
pub fn long_timeout() {
    on_one_thread(served_within(Duration::from_secs(60)));
}

/// Bytes by a socket beside the bus.
pub fn socket() {
    let listener = net::TcpListener::bind("127.0.0.1:0").unwrap();
    let at = listener.local_addr().unwrap();
    let (bus, mut rx) = broadcast::channel(8);
    let server = spawn("server", move || {
        let (mut stream, _) = listener.accept().unwrap();
        let mut byte = [0];
        while stream.read(&mut byte).unwrap() > 0 {
            bus.send(byte[0]).unwrap();
        }
        bus
    });
    let client = spawn("client", move || {
        let mut stream = net::TcpStream::connect(at).unwrap();
        for byte in 1..=3 {
            stream.write_all(&[byte]).unwrap();
            work(100);
        }
    });
    let watcher = spawn("watcher", move || {
        [0; 3].map(|_| rx.blocking_recv().unwrap())
    });
    joined(client);
    let _bus = joined(server);
    assert_eq!(joined(watcher), [1, 2, 3]);
}

/// A thread that spins on an atomic, without a call.
pub fn spin() {
    let (tx, mut rx) = broadcast::channel(4);
    let is_ready = Arc::new(AtomicBool::new(false));
    let of_spinner = is_ready.clone();
    let spinner = spawn("spinner", move || {
        while !of_spinner.load(Ordering::Acquire) {
            std::hint::spin_loop();
        }
    });
    let sender = spawn("sender", move || {
        for value in 0..3 {
            tx.send(value).unwrap();
        }
        is_ready.store(true, Ordering::Release);
    });
    joined(sender);
    assert_eq!([0; 3].map(|_| rx.try_recv().unwrap()), [0, 1, 2]);
    joined(spinner);
}

/// A lock that is held over several calls.
pub fn held_lock() {
    let (number, rx) = watch::channel(0);
    let book = Arc::new(Mutex::new(number));
    let clerks = ["ann", "bob"].map(|name| {
        let (book, rx) = (book.clone(), rx.clone());
        spawn(name, move || {
            for _ in 0..2 {
                let number = book.lock().unwrap();
                let last = *rx.borrow();
                number.send(last + 1).unwrap();
            }
        })
    });
    let _ = clerks.map(joined);
    assert_eq!(*rx.borrow(), 4);
}

/// A closure that changes a watch sends elsewhere, while another thread looks.
pub fn nested_closures() {
    let (state, seen) = watch::channel(0);
    let (told, mut rx) = broadcast::channel(4);
    let _kept = told.subscribe();
    let outer = spawn("outer", move || {
        state.send_modify(|state| {
            *state = 1;
            told.send(7).unwrap();
        });
        (state, told)
    });
    let looker = spawn("looker", move || {
        let state = *seen.borrow();
        (state, rx.try_recv().ok())
    });
    let _kept = joined(outer);
    assert_ne!(joined(looker), (1, None));
}

/// Threads that wait for each other at a barrier between their calls.
pub fn barrier() {
    let (bus, mut rx) = broadcast::channel(16);
    let barrier = Arc::new(Barrier::new(3));
    let threads = ["a", "b", "c"].map(|name| {
        let (bus, barrier) = (bus.clone(), barrier.clone());
        spawn(name, move || {
            for round in 0..2 {
                bus.send(round).unwrap();
                barrier.wait();
            }
        })
    });
    let _ = threads.map(joined);
    assert_eq!([0; 6].map(|_| rx.try_recv().unwrap()), [0, 0, 0, 1, 1, 1]);
}

/// A stop that comes behind the jobs, and is looked at behind them.
pub fn biased_select() {
    on_one_thread(async {
        let (jobs, mut inbox) = tokio::sync::mpsc::channel(4);
        let (stop, mut stopped) = watch::channel(false);
        let worker = tokio::spawn(named("worker", async move {
            let mut done = 0;
            loop {
                tokio::select! {
                    biased;
                    job = inbox.recv() => match job {
                        Some(()) => done += 1,
                        None => return done,
                    },
                    _ = stopped.changed() => inbox.close(),
                }
            }
        }));
        let chief = tokio::spawn(named("chief", async move {
            for _ in 0..3 {
                jobs.send(()).await.unwrap();
            }
            stop.send(true).unwrap();
            stop
        }));
        let _stop = ended(chief).await;
        assert_eq!(ended(worker).await, 3);
    });
}

/// A set of tasks, each with a receiver of its own.
pub fn join_set() {
    on_one_thread(async {
        let (bus, _rx) = broadcast::channel(8);
        let mut set = tokio::task::JoinSet::new();
        for name in ["one", "two", "three"] {
            let mut rx = bus.subscribe();
            set.spawn(named(name, async move { rx.recv().await.unwrap() }));
        }
        bus.send(5).unwrap();
        while let Some(got) = set.join_next().await {
            assert_eq!(got.unwrap(), 5);
        }
    });
}

/// A thread of the blocking pool receives what tasks send on two workers.
pub fn blocking_pool() {
    on_two_workers(async {
        let (bus, mut rx) = broadcast::channel(8);
        let blocking = tokio::task::spawn_blocking(move || {
            let mut sum = 0;
            while let Ok(value) = rx.blocking_recv() {
                sum += value;
            }
            sum
        });
        let sender = |name: &str, value: u32| {
            let bus = bus.clone();
            tokio::spawn(named(name, async move {
                bus.send(value).unwrap();
                yield_now().await;
                bus.send(value).unwrap();
            }))
        };
        let senders = [sender("a", 1), sender("b", 10)];
        drop(bus);
        for sender in senders {
            ended(sender).await;
        }
        assert_eq!(ended(blocking).await, 22);
    });
}

/// Two threads that send as often as the variable says, or ten times.
pub fn many_sends() {
    let sends = std::env::var("SENDS").map_or(10, |sends| sends.parse().unwrap());
    let (bus, _rx) = broadcast::channel(4);
    let senders = ["a", "b"].map(|name| {
        let bus = bus.clone();
        spawn(name, move || {
            for number in 0..sends {
                bus.send(number).unwrap();
            }
        })
    });
    let _ = senders.map(joined);
}

/// An audit passes over what it has lost, so it never fails. It lags where it isn't polled while
/// three orders are sent.
pub fn skipping_audit() {
    on_one_thread(async {
        let (orders, mut rx) = broadcast::channel(2);
        let shop = tokio::spawn(named("shop", async move {
            for order in 0..4 {
                orders.send(order).unwrap();
                yield_now().await;
            }
        }));
        let audit = tokio::spawn(named("audit", async move {
            while !matches!(rx.recv().await, Err(RecvError::Closed)) {}
        }));
        ended(shop).await;
        ended(audit).await;
    });
}
