//! Who calls now, on this thread: its own number and name, or those of the named future that it
//! polls, and what was last looked up for it.

use super::origin::WITHIN;
use super::{UNNAMED_TASK, UNNAMED_THREAD};
use crate::channels::atomic::AtomicU64;
use crate::channels::backend::Actor;
use std::cell::{Cell, RefCell};
use std::fmt::Write;
use std::sync::atomic::{AtomicBool, Ordering};
use std::sync::{Arc, OnceLock, Weak};
use std::thread;
use yovanelum_record::numbered::Numbered;

/// The number that a recorder has given to an actor.
#[derive(Clone, Copy)]
pub(super) struct CachedActor {
    // The recorder's number. None has the number 0.
    pub(super) recorder: u64,
    actor: Actor,
    // One more than the number of the task, or 0 without one.
    task: u64,
    // The number of the caller itself, which is `SOME_TASK` once tasks are told.
    caller: CallerNumber,
}

pub(super) const NOT_CACHED: CachedActor = CachedActor {
    recorder: 0,
    actor: Actor::FIRST,
    task: 0,
    caller: CallerNumber::NONE_YET,
};

/// The number of a caller in this process, which no other has: that of a named future, or of a
/// thread.
#[derive(Clone, Copy, PartialEq, Eq, Hash)]
pub(crate) struct CallerNumber(pub(super) u64);

impl Numbered for CallerNumber {
    fn number(self) -> u64 {
        self.0
    }
}

impl CallerNumber {
    /// The number of no caller.
    pub(crate) const NOBODY: CallerNumber = CallerNumber(u64::MAX);

    /// Of a caller that may be one of several tasks on a thread. It is noted as that of none.
    const SOME_TASK: CallerNumber = CallerNumber(u64::MAX - 1);

    // That of a thread before it is asked for the first time.
    pub(super) const NONE_YET: CallerNumber = CallerNumber(0);

    pub(super) fn next() -> CallerNumber {
        static NEXT: AtomicU64 = AtomicU64::new(1);
        CallerNumber(NEXT.fetch_add(1, Ordering::Relaxed))
    }
}

thread_local! {
    // The number of the future that this thread polls or drops, if that is a named one, or else its
    // own.
    pub(super) static CALLER: Cell<CallerNumber> = const { Cell::new(CallerNumber::NONE_YET) };
    // The result of the last lookup.
    pub(super) static CACHED: Cell<CachedActor> = const { Cell::new(NOT_CACHED) };
    // The name of the future that this thread polls or drops, if it has one. That of a task which
    // nobody named isn't made before it is asked for.
    pub(super) static NAME: RefCell<Option<Arc<str>>> = const { RefCell::new(None) };
    // Whether this thread drops a named future.
    static IS_DROPPING: Cell<bool> = const { Cell::new(false) };
}

/// Returns the number of the task that the current thread polls.
pub(super) type TaskId = fn() -> Option<u64>;

pub(super) static TASK_ID: OnceLock<TaskId> = OnceLock::new();

// Whether it is set. Each call asks this, and a number is read faster than that of a `OnceLock`.
pub(super) static ARE_TASKS_TOLD: AtomicBool = AtomicBool::new(false);

/// Sets the function that returns the number of the task which the current thread runs, or `None`
/// if it runs none.
///
/// It is for a runtime, or for a package that wraps one. With it, the calls of a task without a
/// name are recorded for that task, as `task 17`, and not for its thread. No two tasks may have the
/// same number. The function is called once for each recorded call, and must not use a channel of
/// this crate. It is set for the process, and once: a later call changes nothing.
///
/// A journal has numbers for 64 actors, and gives 32 of them to tasks without a name at most. Tasks
/// that come later are recorded under the name of their thread, as without this function.
/// [`named`](crate::named) gives a task a name.
///
/// # Examples
///
/// A runtime that polls three tasks on one thread, and counts them from 1:
///
/// ```
/// use std::cell::Cell;
/// use yovanelum::{Recorder, block_on, broadcast, set_task_id};
///
/// thread_local! {
///     static TASK: Cell<Option<u64>> = const { Cell::new(None) };
/// }
/// set_task_id(|| TASK.get());
///
/// let recorder = Recorder::new();
/// let _entered = recorder.enter();
/// let prices = broadcast::Sender::new(4);
/// let _chart = prices.subscribe();
/// for task in 1..=3 {
///     TASK.set(Some(task));
///     block_on(async { prices.send(100 + task).unwrap() });
/// }
/// TASK.set(None);
/// assert!(recorder.names().contains(r#""1": "task 1", "2": "task 2", "3": "task 3"}"#));
/// ```
pub fn set_task_id(current: fn() -> Option<u64>) {
    let _ = TASK_ID.set(current);
    ARE_TASKS_TOLD.store(true, Ordering::Release);
}

/// The number that the runtime gives the task that this thread runs, if it tells its tasks apart.
pub(crate) fn current_task() -> Option<u64> {
    TASK_ID.get().and_then(|current| current())
}

/// Returns the current actor for the recorder with this number. Unless it is cached, `find` looks
/// it up, given the current task. Also returns the number of the caller, by which
/// [`LastCaller`](super::LastCaller) notes it.
#[inline(always)]
pub(crate) fn current(
    recorder: u64,
    find: impl FnOnce(Option<u64>) -> Actor,
) -> (Actor, CallerNumber) {
    if let Ok(cached) = &CACHED.try_with(Cell::get) {
        if cached.recorder == recorder && !ARE_TASKS_TOLD.load(Ordering::Acquire) {
            return (cached.actor, cached.caller);
        }
    }
    current_by_task(recorder, find)
}

/// Whether the last recorded call of this thread, or of the future that it polls, was one for the
/// recorder with this number.
pub(crate) fn has_called(recorder: u64) -> bool {
    CACHED
        .try_with(Cell::get)
        .is_ok_and(|cached| cached.recorder == recorder)
}

/// Returns the number that the recorder with this number has given to the current caller, if its
/// last recorded call was one for it.
pub(crate) fn number_of_caller(recorder: u64) -> Option<u64> {
    let cached = CACHED.try_with(Cell::get).ok()?;
    (cached.recorder == recorder).then(|| cached.actor.number().into())
}

/// Returns the number of the recorder of the last recorded call of this thread, or of the future
/// that it polls, if one was made since [`forget_last_recorder`].
pub(crate) fn last_recorder() -> Option<u64> {
    let cached = CACHED.try_with(Cell::get).ok()?;
    Some(cached.recorder).filter(|recorder| *recorder != 0)
}

/// Forgets for which recorder the last call of this thread, or of the future that it polls, was.
pub(crate) fn forget_last_recorder() {
    let _ = CACHED.try_with(|cached| cached.set(NOT_CACHED));
}

/// As [`current`], where nothing is cached, or a thread may run several tasks.
#[inline(never)]
fn current_by_task(
    recorder: u64,
    find: impl FnOnce(Option<u64>) -> Actor,
) -> (Actor, CallerNumber) {
    let (cached, current) = (CACHED.get(), current_task());
    let caller = if are_tasks_told() {
        CallerNumber::SOME_TASK
    } else {
        own_number()
    };
    let task = current.map_or(0, |task| task.wrapping_add(1));
    if cached.recorder == recorder && cached.task == task {
        return (cached.actor, caller);
    }
    let actor = find(current);
    CACHED.set(CachedActor {
        recorder,
        actor,
        task,
        caller,
    });
    (actor, caller)
}

/// Returns the number of the current caller.
pub(crate) fn own_number() -> CallerNumber {
    if CALLER.get() == CallerNumber::NONE_YET {
        CALLER.set(CallerNumber::next());
    }
    CALLER.get()
}

/// Returns the name of the current caller, of those that share a number: that of the future, or
/// else of the thread.
pub(crate) fn name_of_sharing() -> Arc<str> {
    of_future().unwrap_or_else(|| name_of_thread().into())
}

/// Writes the name of the current caller over another one, unless it is the name of the caller with
/// this number already. Returns the number of the current caller.
pub(crate) fn write_caller(before: CallerNumber, name: &mut String) -> CallerNumber {
    let number = own_number();
    let task = current_task();
    if number == before && task.is_none() {
        return number;
    }
    name.clear();
    if !write_future(name) {
        match task {
            Some(task) => drop(write!(name, "{UNNAMED_TASK}{task}")),
            None => name.push_str(&name_of_thread()),
        }
    }
    // The tasks of one thread have its number, so none of them has it for the next call.
    match task {
        Some(_) => CallerNumber::NONE_YET,
        None => number,
    }
}

/// Writes the name of the future that this thread polls or drops, and makes none that isn't made
/// yet. Returns `false` if it has no name.
fn write_future(text: &mut String) -> bool {
    let of_future = NAME.try_with(|name| {
        let name = name.borrow();
        name.as_ref().map(|name| text.push_str(name)).is_some()
    });
    of_future.unwrap_or(false)
        || WITHIN.try_with(|within| {
            let within = within.borrow();
            let origin = within.origin();
            origin.map(|origin| write!(text, "{origin}")).is_some()
        }) == Ok(true)
}

/// Returns the name of the future that this thread polls or drops. That of a task which nobody
/// named is made now.
fn of_future() -> Option<Arc<str>> {
    // At the end of a thread, `NAME` may be destroyed before other values are dropped.
    let name = NAME.try_with(|name| {
        let mut name = name.borrow_mut();
        if name.is_none() {
            let made = WITHIN.try_with(|within| within.borrow().origin().map(ToString::to_string));
            *name = made.ok().flatten().map(Into::into);
        }
        name.clone()
    });
    name.ok().flatten()
}

/// Whether this thread polls or drops a task that nobody named, and that is known by where it comes
/// from.
pub(super) fn is_spawned_task() -> bool {
    let within = WITHIN.try_with(|within| within.borrow().origin().is_some());
    within.unwrap_or(false)
}

/// Returns the future that this thread polls or drops, if it has a name. It is known by its copy of
/// that name.
pub(super) fn future() -> Option<Weak<str>> {
    of_future().as_ref().map(Arc::downgrade)
}

/// Returns the name of the future that this thread polls or drops.
pub(crate) fn name_of_future() -> Option<String> {
    of_future().map(|name| name.to_string())
}

/// Returns the name of the task that this thread polls.
pub(crate) fn name_of_task() -> Arc<str> {
    of_future().unwrap_or_else(|| "a task".into())
}

/// Returns the name of what this thread is blocked on, which polls the others: that of the thread.
pub(crate) fn name_of_blocked() -> Arc<str> {
    name_of_thread().into()
}

/// Returns the name by which the current caller is known: that of the future, or of the thread if
/// it runs no task.
pub(crate) fn name_of_caller() -> Option<String> {
    name_of_future().or_else(name_of_thread_alone)
}

/// Returns the name that somebody gave this thread, unless it runs a future with a name, or a task.
pub(crate) fn name_of_thread_alone() -> Option<String> {
    let is_alone = of_future().is_none() && current_task().is_none();
    is_alone
        .then(name_of_thread)
        .filter(|name| !is_unnamed(name))
}

/// Whether a runtime says which task a thread runs.
#[inline(always)]
pub(super) fn are_tasks_told() -> bool {
    ARE_TASKS_TOLD.load(Ordering::Acquire)
}

/// Whether this is the name of a thread that nobody named.
pub(super) fn is_unnamed(name: &str) -> bool {
    name.starts_with(UNNAMED_THREAD)
}

pub(super) fn name_of_thread() -> String {
    let thread = thread::current();
    match thread.name() {
        Some(name) => name.to_string(),
        None => format!("{:?}", thread.id()),
    }
}

/// Whether this thread drops a named future, which makes no further call then.
#[inline]
pub(crate) fn is_dropping_future() -> bool {
    IS_DROPPING.get()
}

/// Drops a named future by this function.
pub(super) fn dropping(drop: impl FnOnce()) {
    let was_dropping = IS_DROPPING.replace(true);
    drop();
    IS_DROPPING.set(was_dropping);
}
