//! What the programs of `tests/blind.rs` and `tests/further.rs` share. Nothing waits for a time to
//! pass: the feed goes on once the receiver's task is busy, and what that waits for comes once
//! orders were overwritten.

use std::future::Future;
use std::path::{Path, PathBuf};
use std::pin::Pin;
use std::sync::atomic::{AtomicBool, Ordering};
use std::sync::{Arc, Mutex};
use std::task::{Context, Poll, Waker};
use tokio::sync::Notify;
use tokio::sync::broadcast::{Receiver, Sender, error::RecvError};
use tokio::task::JoinHandle;
use yovanelum::named;

/// How many orders are sent after the first one.
const MORE: u32 = 5;

/// What a feed, the receiver and whoever keeps that busy tell each other.
#[derive(Default)]
pub struct Signals {
    busy: Notify,
    overwritten: Notify,
    is_busy: AtomicBool,
    is_overwritten: AtomicBool,
    has_lagged: AtomicBool,
}

impl Signals {
    /// Nothing was told yet.
    pub fn new() -> Arc<Signals> {
        Arc::default()
    }

    /// The same for a test, the receiver, and whoever keeps that busy.
    pub fn shared() -> [Arc<Signals>; 3] {
        let signals = Signals::new();
        [signals.clone(), signals.clone(), signals]
    }

    /// Tells that the receiver's task is busy, once the poll that goes on has ended: a task that is
    /// spawned is run by the same worker after it.
    pub fn is_busy_after_poll(self: &Arc<Signals>) {
        let signals = self.clone();
        tokio::spawn(async move { signals.busy.notify_one() }); // @events_rung
    }

    /// Tells it within the poll, to a thread.
    pub fn is_busy_now(&self) {
        self.is_busy.store(true, Ordering::SeqCst);
    }

    /// Waits until the receiver's task is busy.
    pub async fn busy(&self) {
        self.busy.notified().await; // @events_busy
    }

    /// Waits until orders were overwritten.
    pub async fn overwritten(&self) {
        self.overwritten.notified().await;
    }

    /// Tells that orders were overwritten.
    pub fn are_overwritten(&self) {
        self.is_overwritten.store(true, Ordering::SeqCst);
        self.overwritten.notify_one();
    }

    /// Whether orders were overwritten.
    pub fn has_overwritten(&self) -> bool {
        self.is_overwritten.load(Ordering::SeqCst)
    }

    /// Blocks the thread until orders were overwritten.
    pub fn block_until_overwritten(&self) {
        while !self.has_overwritten() {
            std::thread::yield_now();
        }
    }
}

/// Sends the first order, and the others once the receiver's task is busy, each in a poll of its
/// own.
pub async fn feed(orders: Sender<u32>, signals: Arc<Signals>) {
    orders.send(0).unwrap();
    signals.busy().await;
    for id in 1..=MORE {
        orders.send(id).unwrap();
        tokio::task::yield_now().await;
    }
    signals.are_overwritten();
}

/// The same on a thread.
pub fn feed_on_thread(orders: Sender<u32>, signals: Arc<Signals>) -> std::thread::JoinHandle<()> {
    std::thread::spawn(move || {
        orders.send(0).unwrap();
        while !signals.is_busy.load(Ordering::SeqCst) {
            std::thread::yield_now();
        }
        for id in 1..=MORE {
            orders.send(id).unwrap();
        }
        signals.are_overwritten();
    })
}

/// Returns the next order, or `None` where orders were lost or there are no more.
pub async fn next(orders: &mut Receiver<u32>, signals: &Signals) -> Option<u32> {
    let received = orders.recv().await; // @events_received
    match received {
        Ok(id) => Some(id),
        Err(RecvError::Lagged(_)) => {
            signals.has_lagged.store(true, Ordering::SeqCst);
            None
        }
        Err(RecvError::Closed) => None,
    }
}

/// Fails if the receiver has lost orders.
pub async fn audited(audit: JoinHandle<()>, signals: &Signals) {
    audit.await.unwrap();
    assert!(
        !signals.has_lagged.load(Ordering::SeqCst),
        "orders were lost"
    );
}

/// Has a task feed, and fails if the receiver has lost orders.
pub async fn fed(orders: Sender<u32>, audit: JoinHandle<()>, signals: &Arc<Signals>) {
    tokio::spawn(named("feed", feed(orders, signals.clone())));
    audited(audit, signals).await;
}

/// The same of a thread.
pub async fn fed_by_thread(orders: Sender<u32>, audit: JoinHandle<()>, signals: &Arc<Signals>) {
    let thread = feed_on_thread(orders, signals.clone());
    audited(audit, signals).await;
    thread.join().unwrap();
}

/// The folder in which the system says of this thread what it does.
pub fn this_thread() -> PathBuf {
    std::fs::canonicalize("/proc/thread-self").unwrap()
}

/// Waits until that thread sleeps.
pub async fn until_it_sleeps(thread: &Path) {
    loop {
        let said = std::fs::read_to_string(thread.join("stat")).unwrap();
        // Behind its name, which may have any letters, is its state.
        if said.rsplit_once(") ").unwrap().1.starts_with('S') {
            return;
        }
        crate::wait(1).await;
    }
}

/// A future by hand that is ready once it was opened.
#[derive(Clone, Default)]
pub struct Gate(Arc<Mutex<(bool, Option<Waker>)>>);

impl Gate {
    /// Opens it.
    pub fn open(&self) {
        let mut gate = self.0.lock().unwrap();
        gate.0 = true;
        let waker = gate.1.take();
        drop(gate);
        if let Some(waker) = waker {
            waker.wake(); // @gate_woken
        }
    }
}

impl Future for Gate {
    type Output = ();

    fn poll(self: Pin<&mut Self>, context: &mut Context<'_>) -> Poll<()> {
        let mut gate = self.0.lock().unwrap();
        if gate.0 {
            return Poll::Ready(());
        }
        gate.1 = Some(context.waker().clone()); // @gate_kept
        Poll::Pending
    }
}
