//! A thread that waits for a future.

use crate::channels::budget::Budgeted;
use std::cell::Cell;
use std::future::Future;
use std::pin::pin;
use std::sync::atomic::{AtomicBool, Ordering};
use std::sync::{Arc, OnceLock};
use std::task::{Context, Poll, Wake, Waker};
use std::thread::{self, Thread};

/// Wakes a thread that waits for a future. A thread has one unpark token at most, and other code
/// that parks within a poll may consume it. So a flag records that the future is to be polled
/// again.
struct Unpark {
    thread: Thread,
    is_woken: AtomicBool,
}

impl Wake for Unpark {
    fn wake(self: Arc<Self>) {
        self.is_woken.store(true, Ordering::Release);
        self.thread.unpark();
    }
}

thread_local! {
    // How many futures this thread is blocked on, one within the poll of another.
    static BLOCKED_ON: Cell<usize> = const { Cell::new(0) };
}

/// Whether the current thread polls a future that it is blocked on.
pub(crate) fn is_blocked_on_future() -> bool {
    BLOCKED_ON.get() > 0
}

/// What panics where the current thread must not be blocked, since it runs a runtime's tasks.
static CHECK: OnceLock<fn()> = OnceLock::new();

/// Has this function called before a thread is blocked by a receive. It panics as the runtime does
/// whose tasks the thread runs.
///
/// No part of what this crate promises: it is for the package that stands for tokio.
#[doc(hidden)]
pub fn set_blocking_check(check: fn()) {
    let _ = CHECK.set(check);
}

/// Panics if the current thread runs the tasks of a runtime that is known, since it would block
/// all of them.
pub(crate) fn check_blocking() {
    if let Some(check) = CHECK.get() {
        check();
    }
}

/// While this is alive, its thread is blocked on a future. It is dropped also if the future panics.
struct Blocked;

impl Blocked {
    fn new() -> Blocked {
        BLOCKED_ON.set(BLOCKED_ON.get() + 1);
        Blocked
    }
}

impl Drop for Blocked {
    fn drop(&mut self) {
        BLOCKED_ON.set(BLOCKED_ON.get() - 1);
    }
}

/// Runs a future on the current thread, blocks the thread until it completes, and returns its
/// output.
///
/// This is for tests that have threads and no runtime. It starts no runtime, so it cannot run
/// futures that need one, such as timers of tokio.
///
/// # Panics
///
/// Panics if the future panics.
///
/// # Examples
///
/// ```
/// use std::thread;
/// use yovanelum::{block_on, broadcast};
///
/// let (bus, mut listener) = broadcast::channel(4);
/// let service = thread::spawn(move || block_on(async { (listener.recv().await, listener.recv().await) }));
/// bus.send("started").unwrap();
/// bus.send("stopped").unwrap();
/// assert_eq!(service.join().unwrap(), (Ok("started"), Ok("stopped")));
/// ```
pub fn block_on<F: Future>(future: F) -> F::Output {
    let _blocked = Blocked::new();
    let _unlimited = Budgeted::blocked();
    let mut future = pin!(future);
    let unpark = Arc::new(Unpark {
        thread: thread::current(),
        is_woken: AtomicBool::new(false),
    });
    let waker = Waker::from(unpark.clone());
    let mut context = Context::from_waker(&waker);
    loop {
        if let Poll::Ready(output) = future.as_mut().poll(&mut context) {
            return output;
        }
        while !unpark.is_woken.swap(false, Ordering::Acquire) {
            thread::park();
        }
    }
}
