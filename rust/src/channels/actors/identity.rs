//! Which callers are the same one, for a replay.

use super::caller::{are_tasks_told, current_task, future};
use crate::channels::block_on::is_blocked_on_future;
use crate::channels::reentrant::thread_number;
use std::sync::Weak;
use std::thread;

/// Who calls, as far as callers that are alive can be told apart: the future, the task or the
/// thread.
#[derive(Clone)]
pub(crate) struct Identity {
    // The name of the future. Each future has its own copy.
    future: Option<Weak<str>>,
    task: Option<u64>,
    thread: usize,
    // Whether the thread is a worker of a runtime, by the name that tokio gives it.
    is_worker: bool,
}

/// The names that tokio's versions give to workers.
const WORKERS: [&str; 2] = ["tokio-runtime-worker", "tokio-rt-worker"];

/// Whether this is the name of a worker of a runtime.
pub(super) fn is_worker(thread: &str) -> bool {
    WORKERS.contains(&thread)
}

impl Identity {
    /// Returns who calls now.
    pub(crate) fn current() -> Identity {
        Identity {
            future: future(),
            task: current_task(),
            thread: thread_number(),
            is_worker: thread::current().name().is_some_and(is_worker),
        }
    }

    /// Whether nothing but the thread is known of this caller.
    pub(crate) fn is_thread_alone(&self) -> bool {
        self.future.is_none() && self.task.is_none()
    }

    /// Whether this is a task that nobody named, as far as a runtime says it.
    pub(crate) fn is_unnamed_task(&self) -> bool {
        self.future.is_none() && (self.task.is_some() || self.is_worker)
    }

    /// Whether both may be one task without a name, which has moved from one worker of its runtime
    /// to another.
    pub(crate) fn may_be_moved(&self, other: &Identity) -> bool {
        let is_any_task = |it: &Identity| it.is_thread_alone() && it.is_worker;
        is_any_task(self) && is_any_task(other)
    }

    /// Returns the number of the thread.
    pub(crate) fn thread(&self) -> usize {
        self.thread
    }

    /// Whether this may be a task, since no runtime says which tasks its thread runs.
    pub(crate) fn may_be_task(&self) -> bool {
        self.is_thread_alone() && !are_tasks_told()
    }

    /// Whether this may be any task that the current thread polls. It is none where the thread
    /// itself is blocked on a future of this crate.
    pub(crate) fn may_be_any_task(&self) -> bool {
        self.may_be_task() && !is_blocked_on_future()
    }

    /// Whether both are the same future, or the same task or thread without a name.
    pub(crate) fn is_same(&self, other: &Identity) -> bool {
        match (&self.future, &other.future) {
            (Some(future), Some(other)) => future.ptr_eq(other),
            (None, None) if self.task.is_some() || other.task.is_some() => self.task == other.task,
            (None, None) => self.thread == other.thread,
            _ => false,
        }
    }

    /// Whether this caller may call again. Of tasks and threads that isn't known.
    pub(crate) fn is_alive(&self) -> bool {
        let future = self.future.as_ref();
        future.is_none_or(|future| future.strong_count() > 0)
    }
}
