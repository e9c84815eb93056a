//! The number of the task that a thread runs, by which yovanelum tells apart the tasks that have no
//! name: that of tokio's id, where its version says which one is current, or else one of this
//! package, with which tasks are wrapped.

use crate::budget;
use std::cell::Cell;
use std::future::Future;
use std::hash::{Hash, Hasher};
use std::pin::Pin;
use std::sync::atomic::{AtomicUsize, Ordering};
use std::task::{Context, Poll};
use yovanelum::{record_tests, set_patch, set_task_id};

/// Tells yovanelum how to know the current task and its budget, that this package is part of the
/// build, and that a test of this thread may begin.
pub(crate) fn tell_apart() {
    set_task_id(current);
    budget::tell();
    yovanelum::set_blocking_check(crate::blocking::check);
    crate::points::set();
    #[cfg(feature = "time")]
    yovanelum::set_clock(crate::timers::clock);
    set_patch(env!("CARGO_MANIFEST_DIR"));
    record_tests();
}

/// In the place of tokio's `task::Id`, where it says of no task that it is the current one.
enum NotSaid {}

#[allow(dead_code)]
fn try_id() -> Option<NotSaid> {
    None
}

/// What says which task is the current one, if anything does.
trait Said {
    const IS_SAID: bool;

    fn number(self) -> u64;
}

impl Said for NotSaid {
    const IS_SAID: bool = false;

    fn number(self) -> u64 {
        match self {}
    }
}

/// Ids show their number as a text alone, and pass it to a hasher.
impl<T: Hash> Said for T {
    const IS_SAID: bool = true;

    fn number(self) -> u64 {
        let mut hashed = Hashed(0);
        self.hash(&mut hashed);
        hashed.finish()
    }
}

fn is_said_by<T: Said>(_try_id: fn() -> Option<T>) -> bool {
    T::IS_SAID
}

/// Whether this tokio says which task is the current one.
#[inline]
pub(crate) fn are_told() -> bool {
    // A name of the glob is taken before one of this file.
    #[allow(unused_imports)]
    use real_tokio::task::*;
    is_said_by(try_id)
}

/// Returns the number of the task that this thread runs.
fn current() -> Option<u64> {
    #[allow(unused_imports)]
    use real_tokio::task::*;
    try_id().map(Said::number).or_else(|| NUMBER.get())
}

/// A hasher whose hash is the number that is written to it.
struct Hashed(u64);

impl Hasher for Hashed {
    fn finish(&self) -> u64 {
        self.0
    }

    fn write(&mut self, bytes: &[u8]) {
        for byte in bytes {
            self.0 = (self.0 << 8) | u64::from(*byte);
        }
    }

    fn write_u64(&mut self, number: u64) {
        self.0 = number;
    }
}

thread_local! {
    // The number of the wrapped task that this thread polls or drops.
    static NUMBER: Cell<Option<u64>> = const { Cell::new(None) };
}

/// While this is alive, the thread runs a task. Then it runs again what it ran before.
struct Running(Option<u64>);

impl Running {
    fn task(number: u64) -> Running {
        Running(NUMBER.replace(Some(number)))
    }
}

impl Drop for Running {
    fn drop(&mut self) {
        NUMBER.set(self.0);
    }
}

/// A task with a number of this package.
pub(crate) struct Numbered<F> {
    number: u64,
    // `None` once this is dropped.
    future: Option<Pin<Box<F>>>,
}

/// Wraps the future of a task, so that it has a number.
pub(crate) fn numbered<F: Future>(future: F) -> Numbered<F> {
    // Processors without atomic numbers of 64 bits have those of this size.
    static NEXT: AtomicUsize = AtomicUsize::new(1);
    Numbered {
        number: NEXT.fetch_add(1, Ordering::Relaxed) as u64,
        future: Some(Box::pin(future)),
    }
}

impl<F: Future> Future for Numbered<F> {
    type Output = F::Output;

    fn poll(mut self: Pin<&mut Self>, context: &mut Context<'_>) -> Poll<F::Output> {
        let _running = Running::task(self.number);
        let future = self.future.as_mut().expect("a task that is alive");
        future.as_mut().poll(context)
    }
}

impl<F> Drop for Numbered<F> {
    /// Drops the future as its task, so that the drop's calls are that task's, also if it is
    /// cancelled.
    fn drop(&mut self) {
        let _running = Running::task(self.number);
        self.future = None;
    }
}
