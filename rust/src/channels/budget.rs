//! The budget of a task: how many of its calls that may wait are ready, before it gives way to
//! other tasks of its thread.
//!
//! A receive from a channel that is never empty is always ready. A task that receives in a loop
//! would never end its poll, and no other task of its thread would run. So each poll of a task has
//! a budget. Once it is used up, calls that may wait wake the task and are pending, until that poll
//! ends. A runtime that has a budget of its own says so by [`set_budget`], and then this module
//! only asks it.
//!
//! What a poll of a task is can't be told from within a future: a test that polls by hand looks the
//! same. So it is one of a [`named`](crate::named) future, or of one that is wrapped by
//! [`budgeted`]. Elsewhere there is no budget, as in tokio outside of a runtime.

use crate::channels::block_on::is_blocked_on_future;
use std::cell::Cell;
use std::future::{Future, poll_fn};
use std::sync::OnceLock;
use std::task::{Context, Poll};

/// How many calls of one poll are ready, as in tokio.
const OF_A_POLL: u8 = 128;

thread_local! {
    // What is left of the budget of the task that this thread polls, if it has one.
    static LEFT: Cell<Option<u8>> = const { Cell::new(None) };
}

/// The budget that a runtime has for its tasks.
struct OfRuntime {
    has_left: fn() -> bool,
    take_one: fn(&mut Context<'_>) -> Poll<()>,
}

static OF_RUNTIME: OnceLock<OfRuntime> = OnceLock::new();

/// Has the runtime's own budget used. `has_left` says whether any of it is left, and `take_one`
/// takes one of it: where none is left, it is pending and wakes the task.
///
/// No part of what this crate promises: other versions may have none, or another one.
pub fn set_budget(has_left: fn() -> bool, take_one: fn(&mut Context<'_>) -> Poll<()>) {
    let _ = OF_RUNTIME.set(OfRuntime { has_left, take_one });
}

/// Whether a call that may wait gives way. Then the task is woken, and the call is pending.
pub(crate) fn gives_way(context: &Context<'_>) -> bool {
    if let Some(runtime) = of_runtime() {
        return !(runtime.has_left)() && take_one_of(runtime, context).is_pending();
    }
    let gives_way = LEFT.get() == Some(0);
    if gives_way {
        context.waker().wake_by_ref();
    }
    gives_way
}

/// Notes that a call that may wait is ready.
pub(crate) fn take_one(context: &Context<'_>) {
    match of_runtime() {
        Some(runtime) => drop(take_one_of(runtime, context)),
        None => LEFT.set(LEFT.get().map(|left| left.saturating_sub(1))),
    }
}

/// Returns the budget of the runtime that polls, if it has one. A thread that is blocked on a
/// future has no other task to run.
fn of_runtime() -> Option<&'static OfRuntime> {
    OF_RUNTIME.get().filter(|_| !is_blocked_on_future())
}

fn take_one_of(runtime: &OfRuntime, context: &Context<'_>) -> Poll<()> {
    (runtime.take_one)(&mut Context::from_waker(context.waker()))
}

/// A part of a poll with another budget than the one around it, which is there again when this is
/// dropped.
pub(crate) struct Budgeted(Option<Option<u8>>);

impl Budgeted {
    /// A poll of a task, with a whole budget.
    fn task() -> Budgeted {
        Budgeted(Some(LEFT.replace(Some(OF_A_POLL))))
    }

    /// A poll of a future that is a task, unless this is within the poll of one, or its thread is
    /// blocked on it.
    #[inline]
    pub(crate) fn named() -> Budgeted {
        if LEFT.get().is_some() || is_blocked_on_future() {
            Budgeted(None)
        } else {
            Budgeted::task()
        }
    }

    /// A thread that is blocked on a future: it has no budget.
    pub(crate) fn blocked() -> Budgeted {
        Budgeted(Some(LEFT.replace(None)))
    }
}

impl Drop for Budgeted {
    #[inline]
    fn drop(&mut self) {
        if let Some(before) = self.0 {
            LEFT.set(before);
        }
    }
}

/// Wraps the future of a task, so that each of its polls has a budget.
///
/// No part of what this crate promises: other versions may have none, or another one.
pub fn budgeted<F: Future>(future: F) -> impl Future<Output = F::Output> {
    let mut future = Box::pin(future);
    poll_fn(move |context| {
        let _budgeted = Budgeted::task();
        future.as_mut().poll(context)
    })
}
