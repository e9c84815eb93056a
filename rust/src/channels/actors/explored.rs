//! Tasks as they stand in a run that is explored.

use super::caller::name_of_future;
use crate::channels::turns::explored;
use crate::channels::whereabouts::SeenPolls;
use std::cell::{Cell, RefCell};
use std::sync::Arc;
use std::sync::atomic::{AtomicBool, Ordering};
use std::task::Context;

/// Whether the package that stands for tokio has spawned a task.
static IS_OVER_FACADE: AtomicBool = AtomicBool::new(false);

/// Whether a task of this run was spawned by the package that stands for tokio.
pub(crate) fn is_over_facade() -> bool {
    IS_OVER_FACADE.load(Ordering::Relaxed)
}

/// Notes that the package that stands for tokio spawns a task, or has a call of tokio's own chosen.
pub(crate) fn note_facade() {
    IS_OVER_FACADE.store(true, Ordering::Relaxed);
}

thread_local! {
    // The outermost named task that this thread has polled last.
    static TASK: RefCell<Option<Arc<str>>> = const { RefCell::new(None) };
    // Whether this thread polls or drops a task without a name, which is the one above.
    static IS_IN_TASK: Cell<bool> = const { Cell::new(false) };
    // Whether this thread polls a future on which it blocks.
    static IS_IN_BLOCKED_POLL: Cell<bool> = const { Cell::new(false) };
}

/// Whether this thread polls or drops a task that the explorer knows.
pub(crate) fn is_in_task() -> bool {
    IS_IN_TASK.get() || name_of_future().is_some()
}

/// Returns the outermost task that this thread has polled or dropped last. At the end of a thread
/// it may be forgotten.
pub(crate) fn last_task() -> Option<Arc<str>> {
    let last = TASK.try_with(|last| last.borrow().clone());
    last.ok().flatten()
}

/// Notes that this thread polls or drops this task, within no other.
pub(crate) fn set_last_task(task: &Arc<str>) {
    drop(replace_last_task(Some(task.clone())));
}

/// Returns the task that was the last one before.
fn replace_last_task(task: Option<Arc<str>>) -> Option<Arc<str>> {
    let before = TASK.try_with(|last| last.replace(task));
    before.ok().flatten()
}

/// Tells the run that is explored where this task waits, if this process is one.
pub(super) fn note_wait(task: Option<&Arc<str>>, seen: &SeenPolls) {
    if task.is_some() {
        note_wait_at(task, seen);
    }
}

/// The same of what this thread blocks on.
pub(crate) fn note_wait_of_thread(seen: &SeenPolls) {
    note_wait_at(None, seen);
}

fn note_wait_at(task: Option<&Arc<str>>, seen: &SeenPolls) {
    if let (Some(run), Some(place)) = (explored(), seen.waits_at()) {
        run.tasks.waits(task, place);
    }
}

/// Whether this thread polls a future on which it blocks.
pub(crate) fn is_in_blocked_poll() -> bool {
    IS_IN_BLOCKED_POLL.get()
}

/// While this is alive, this thread polls a future on which it blocks.
pub(crate) struct BlockedPoll(bool);

impl BlockedPoll {
    pub(crate) fn enter() -> BlockedPoll {
        BlockedPoll(IS_IN_BLOCKED_POLL.replace(true))
    }
}

impl Drop for BlockedPoll {
    fn drop(&mut self) {
        IS_IN_BLOCKED_POLL.set(self.0);
    }
}

/// A task that nobody named, whose polls a run that is explored chooses.
pub(crate) struct ExploredTask {
    name: String,
    // The name that no other caller has, from the first poll on.
    task: Option<Arc<str>>,
}

impl ExploredTask {
    pub(super) fn new(name: String) -> ExploredTask {
        ExploredTask { name, task: None }
    }

    /// Whether this poll of the task is held back. Then the task is woken later.
    pub(super) fn is_held(&mut self, context: &Context<'_>) -> bool {
        explored().is_some_and(|run| run.tasks.hold(&mut self.task, &self.name, context))
    }

    /// Blocks this thread until the function goes on which is the task.
    pub(super) fn begin_blocking(&mut self) {
        if let Some(run) = explored() {
            run.tasks.begin_blocking(&mut self.task, &self.name);
        }
    }

    /// The name that no other caller has, once it was polled.
    pub(super) fn task(&self) -> Option<&Arc<str>> {
        self.task.as_ref()
    }

    /// Makes the calls of this thread those of the task, until what this returns is dropped.
    pub(super) fn enter(&self) -> Option<InTask> {
        self.task.as_ref().map(InTask::new)
    }

    /// Leaves the gate, since the task is dropped.
    pub(super) fn leave(&self) {
        if let (Some(task), Some(run)) = (&self.task, explored()) {
            run.tasks.leave(task);
        }
    }
}

/// While this is alive, this thread polls or drops a task without a name.
pub(crate) struct InTask {
    was_in_task: bool,
    before: Option<Arc<str>>,
}

impl InTask {
    fn new(task: &Arc<str>) -> InTask {
        if is_in_task() {
            InTask {
                was_in_task: IS_IN_TASK.get(),
                before: last_task(),
            }
        } else {
            InTask {
                was_in_task: IS_IN_TASK.replace(true),
                before: replace_last_task(Some(task.clone())),
            }
        }
    }
}

impl Drop for InTask {
    fn drop(&mut self) {
        IS_IN_TASK.set(self.was_in_task);
        drop(replace_last_task(self.before.take()));
    }
}
