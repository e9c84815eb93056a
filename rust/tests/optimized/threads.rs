//! Both channels under eight threads.

use crate::support::{accepted, in_time, stamps};
use std::collections::HashSet;
use std::future::{Future, poll_fn};
use std::pin::pin;
use std::sync::atomic::{AtomicBool, AtomicUsize, Ordering};
use std::sync::{Arc, Mutex};
use std::thread::{self, JoinHandle};
use std::time::{Duration, Instant};
use yovanelum::broadcast::{self, Receiver, error::RecvError};
use yovanelum::{Recorder, block_on, named, watch};

/// For how long the threads send, at most.
const LIMIT: Duration = Duration::from_millis(400);

/// How many values each thread sends, at most.
const MOST: u64 = 20_000;

/// Repeats a call until it was made `MOST` times or the time is over. Returns how often it was
/// made.
fn repeated(end: Instant, mut call: impl FnMut(u64)) -> u64 {
    let mut made = 0;
    while made < MOST && Instant::now() < end {
        call(made);
        made += 1;
    }
    made
}

/// Returns the results of the threads, in the order in which they were spawned.
fn joined<R>(threads: Vec<JoinHandle<R>>) -> Vec<R> {
    let ended = threads.into_iter().map(|thread| thread.join().unwrap());
    ended.collect()
}

/// What a receiver got: its values in order, the same values as a set, and how many it lost.
#[derive(Default)]
struct ReceivedValues {
    got: Vec<Sent>,
    all: HashSet<Sent>,
    lost: u64,
}

/// A value: its sender, and how many values that sender sent before.
type Sent = (usize, u64);

impl ReceivedValues {
    /// Returns the values that the other receiver got too, in the order in which this one got them.
    fn common_with(&self, other: &ReceivedValues) -> impl Iterator<Item = &Sent> {
        self.got.iter().filter(|value| other.all.contains(value))
    }
}

/// Receives until the channel is closed. Asserts that the values of each sender rise.
fn receive_all(mut rx: Receiver<Sent>) -> ReceivedValues {
    let mut came = ReceivedValues::default();
    let mut last = [None; 4];
    loop {
        match rx.blocking_recv() {
            Ok((sender, value)) => {
                assert!(
                    last[sender] < Some(value),
                    "{:?} before {value} of {sender}",
                    last[sender]
                );
                last[sender] = Some(value);
                came.got.push((sender, value));
            }
            Err(RecvError::Lagged(n)) => came.lost += n,
            Err(RecvError::Closed) => {
                came.all = came.got.iter().copied().collect();
                return came;
            }
        }
    }
}

#[test]
#[cfg_attr(target_family = "wasm", ignore = "WebAssembly has no threads")]
fn a_broadcast_of_four_senders_and_four_receivers() {
    let recorder = Recorder::new();
    let _entered = recorder.enter();
    let (tx, rx) = broadcast::channel(64);
    let end = Instant::now() + LIMIT;
    let receivers: Vec<_> = (0..4).map(|_| tx.subscribe()).collect();
    drop(rx);
    let readers: Vec<_> = receivers
        .into_iter()
        .map(|rx| thread::spawn(move || receive_all(rx)))
        .collect();
    let senders: Vec<_> = (0..4)
        .map(|sender| {
            let tx = tx.clone();
            thread::spawn(move || {
                repeated(end, |value| {
                    assert_eq!(tx.send((sender, value)).unwrap(), 4);
                })
            })
        })
        .collect();
    drop(tx);
    let sent: u64 = joined(senders).into_iter().sum();
    let came = joined(readers);
    for one in &came {
        assert_eq!(one.got.len() as u64 + one.lost, sent);
    }
    for (number, one) in came.iter().enumerate() {
        for other in &came[..number] {
            assert!(one.common_with(other).eq(other.common_with(one)));
        }
    }
    assert!(accepted(&recorder, "threads-broadcast") >= sent);
}

#[test]
#[cfg_attr(target_family = "wasm", ignore = "WebAssembly has no threads")]
fn a_watch_of_four_senders_and_four_receivers() {
    let recorder = Recorder::new();
    let _entered = recorder.enter();
    let (tx, rx) = watch::channel([0u64; 4]);
    let end = Instant::now() + LIMIT;
    let readers: Vec<_> = (0..4)
        .map(|_| {
            let mut rx = rx.clone();
            thread::spawn(move || {
                let mut last = [0; 4];
                while block_on(rx.changed()).is_ok() {
                    let now = *rx.borrow_and_update();
                    assert!(
                        last.iter().zip(&now).all(|(before, now)| before <= now),
                        "{last:?} before {now:?}"
                    );
                    last = now;
                }
                last
            })
        })
        .collect();
    drop(rx);
    let senders: Vec<_> = (0..4)
        .map(|sender| {
            let tx = tx.clone();
            thread::spawn(move || repeated(end, |_| tx.send_modify(|counts| counts[sender] += 1)))
        })
        .collect();
    drop(tx);
    let sent = joined(senders);
    for last in joined(readers) {
        assert_eq!(last.to_vec(), sent);
    }
    assert!(accepted(&recorder, "threads-watch") >= sent.iter().sum::<u64>());
}

#[test]
#[cfg_attr(target_family = "wasm", ignore = "WebAssembly has no threads")]
fn a_journal_saved_while_others_call_is_a_run() {
    let recorder = Recorder::new();
    let _entered = recorder.enter();
    let stop = Arc::new(AtomicBool::new(false));
    let (first, from_first) = broadcast::channel(8);
    let (second, from_second) = broadcast::channel(8);
    let threads: Vec<_> = [(first, from_second), (second, from_first)]
        .into_iter()
        .map(|(tx, mut rx)| {
            let stop = stop.clone();
            thread::spawn(move || {
                let mut sent = 0;
                while !stop.load(Ordering::Relaxed) && sent < MOST && tx.send(sent).is_ok() {
                    let _ = rx.try_recv();
                    sent += 1;
                }
            })
        })
        .collect();
    let mut before = 0;
    for save in 0..5 {
        // No call waits here, so each call leaves an entry, and no stamp before the cut is missing.
        let stamps = stamps(&recorder.journal().unwrap());
        assert!(stamps.iter().copied().eq(1..=stamps.len() as u64));
        let entries = accepted(&recorder, &format!("mid-run-{save}"));
        assert!(entries >= before.max(stamps.len() as u64));
        before = entries;
    }
    stop.store(true, Ordering::Relaxed);
    for thread in threads {
        thread.join().unwrap();
    }
    assert_eq!(accepted(&recorder, "mid-run-end"), recorder.len());
}

#[test]
#[cfg_attr(target_family = "wasm", ignore = "WebAssembly has no threads")]
fn tasks_on_threads_of_their_own() {
    let recorder = Recorder::new();
    let _entered = recorder.enter();
    let (settings, mut set) = watch::channel(0u32);
    let (tx, mut rx) = broadcast::channel(8);
    let bus = named("bus", async move {
        while set.changed().await.is_ok() {
            let value = *set.borrow_and_update();
            let _ = tx.send(value);
        }
    });
    let reader = named("reader", async move {
        let mut last = 0;
        while let Ok(value) = rx.recv().await {
            last = value;
        }
        last
    });
    let bus = thread::spawn(move || block_on(bus));
    let reader = thread::spawn(move || block_on(reader));
    let feed = thread::Builder::new().name("feed".into()).spawn(move || {
        for value in 1..=5 {
            settings.send(value).unwrap();
        }
    });
    feed.unwrap().join().unwrap();
    bus.join().unwrap();
    assert_eq!(reader.join().unwrap(), 5);
    for name in [r#""bus""#, r#""reader""#, r#""feed""#] {
        assert!(recorder.names().contains(name), "{}", recorder.names());
    }
    assert_eq!(accepted(&recorder, "tasks"), recorder.len());
}

#[test]
#[cfg_attr(target_family = "wasm", ignore = "WebAssembly has no threads")]
fn stamps_differ_where_a_second_channel_is_made_while_calls_go_on() {
    let recorder = Recorder::new();
    let _entered = recorder.enter();
    let (tx, _rx) = broadcast::channel(4);
    let is_over = Arc::new(AtomicBool::new(false));
    let threads: Vec<_> = (0..3)
        .map(|_| {
            let (tx, is_over) = (tx.clone(), is_over.clone());
            thread::spawn(move || {
                while !is_over.load(Ordering::Relaxed) {
                    tx.send(1).unwrap();
                }
            })
        })
        .collect();
    while recorder.len() < 1_000 {
        thread::yield_now();
    }
    let (second, _seen) = watch::channel(0);
    for value in 0..1_000 {
        second.send(value).unwrap();
    }
    is_over.store(true, Ordering::Relaxed);
    for thread in threads {
        thread.join().unwrap();
    }
    let stamps = stamps(&recorder.journal().unwrap());
    assert!(stamps.windows(2).all(|pair| pair[0] < pair[1]));
    assert_eq!(accepted(&recorder, "second-channel"), recorder.len());
}

#[test]
#[cfg_attr(target_family = "wasm", ignore = "WebAssembly has no threads")]
fn a_thread_that_waits_is_woken_also_where_something_parks_within_the_poll() {
    let received = in_time(|| {
        let (tx, mut rx) = broadcast::channel(2);
        let mut recv = pin!(rx.recv());
        let mut has_parked = false;
        block_on(poll_fn(|context| {
            let answer = recv.as_mut().poll(context);
            if answer.is_pending() && !has_parked {
                has_parked = true;
                tx.send(7).unwrap();
                // Like other code that parks within a poll, this consumes the thread's one unpark
                // token.
                thread::park();
            }
            answer
        }))
    });
    assert_eq!(received, Ok(7));
}

/// What looks return that take no lock: after a call has returned, as another thread knows, they
/// see what it has done.
#[test]
fn looks_see_what_was_done_before() {
    const SENT: usize = 20_000;
    let (tx, rx) = watch::channel(0);
    let (sent, made) = (AtomicUsize::new(0), AtomicUsize::new(0));
    let kept = Mutex::new(Vec::new());
    thread::scope(|scope| {
        scope.spawn(|| {
            for value in 1..=SENT {
                match value % 3 {
                    0 => tx.send(value).unwrap(),
                    1 => tx.send_modify(|it| *it = value),
                    _ => drop(tx.send_replace(value)),
                }
                sent.store(value, Ordering::Release);
            }
        });
        scope.spawn(|| {
            for count in 1..=100 {
                kept.lock().unwrap().push(tx.subscribe());
                made.store(count, Ordering::Release);
            }
        });
        for _ in 0..2 {
            let mut rx = rx.clone();
            let (sent, made, tx) = (&sent, &made, &tx);
            scope.spawn(move || {
                let mut seen = 0;
                while seen < SENT {
                    let receivers = made.load(Ordering::Acquire);
                    assert!(tx.receiver_count() >= receivers && !tx.is_closed());
                    let before = sent.load(Ordering::Acquire);
                    if before > seen {
                        assert!(rx.has_changed().unwrap());
                        assert!(rx.borrow().has_changed());
                    }
                    let value = rx.borrow_and_update();
                    assert!(*value >= before);
                    seen = *value;
                }
                assert!(!rx.has_changed().unwrap() && !rx.borrow().has_changed());
            });
        }
    });
    drop(tx);
    assert!(rx.has_changed().is_err());
}
