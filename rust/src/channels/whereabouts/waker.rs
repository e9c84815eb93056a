//! The waker of a poll, which says where it is kept and by whom it is woken.
//!
//! The waker that a poll is given stands on the stack, and is only lent. A clone of it is on the
//! heap: an `Arc` of its own for each place, that wakes what the poll's own context wakes.
//! `std::task::Wake` would not do: nobody is told where an `Arc` is cloned, which is what all is
//! about. So both tables are written by hand, by the rules of `RawWakerVTable`:
//!
//! - *Each function may be called by any thread, and by several at once.* What the data of a waker
//!   refers to is checked to be `Sync`, and that of a clone to be `Send`, since any thread may drop
//!   it. What changes of them is a `OnceLock`, atomic, or the count of an `Arc`.
//! - *`clone` retains what the new waker needs, which wakes the same task.* A clone is an `Arc`
//!   with a waker of its own of that task. It needs nothing of the poll.
//! - *`wake` and `drop` release it, and `wake_by_ref` does not.* Those of a clone take back the
//!   count that `Arc::into_raw` has given, also where the task's own waker panics. A lent waker
//!   owns nothing: it is never dropped, and is had by reference alone, no longer than its poll.
//! - *The data is that of a waker with this table.* It is made by `raw` and `clone_kept` for the
//!   one, and by `poll` for the other.
#![allow(unsafe_code)]

#[cfg(test)]
mod tests;

use super::places::{self, PlaceNumber};
use super::task::WatchedTask;
use super::{current, is_any_test};
use crate::channels::actors::name_of_blocked;
use crate::channels::atomic::AtomicU64;
use crate::channels::wait::Method;
use std::cell::Cell;
use std::mem::ManuallyDrop;
use std::ptr;
use std::sync::atomic::{AtomicPtr, Ordering};
use std::sync::{Arc, OnceLock};
use std::task::{Context, Poll, RawWaker, RawWakerVTable, Waker};

/// A poll that goes on, on the stack of its thread. Other threads may have its waker lent while it
/// does.
struct RunningPoll<'a> {
    inner: &'a Waker,
    // The task, and the number of the poll. Not set for a poll in which its recorder isn't created
    // yet.
    of: OnceLock<(Arc<WatchedTask>, u64)>,
    // The poll in which this one goes on, on the same thread.
    outer: AtomicPtr<()>,
}

/// A clone of the waker of a poll.
struct KeptWaker {
    inner: Waker,
    of: Option<Arc<WatchedTask>>,
    // The number of the poll in which it was kept, or kept again.
    poll: AtomicU64,
    place: PlaceNumber,
}

thread_local! {
    // The innermost poll that goes on here.
    static RUNNING: Cell<*const ()> = const { Cell::new(ptr::null()) };
    // The place of all clones that are made now, if it is known.
    static GIVEN: Cell<Option<PlaceNumber>> = const { Cell::new(None) };
    // The task that ended last here, since when none was polled.
    static ENDED: Cell<Option<u64>> = const { Cell::new(None) };
}

const fn is_shared<T: Sync>() {}
const fn is_sent<T: Send>() {}
const _: () = is_shared::<RunningPoll<'static>>();
const _: () = is_shared::<KeptWaker>();
const _: () = is_sent::<KeptWaker>();

// SAFETY of both tables: the functions may be called by any thread, and what they refer to may be
// shared (above). The data of the first one is a `RunningPoll` that outlives each borrow of its
// waker, and is never owned. That of the second is an `Arc<KeptWaker>` of which the waker owns one
// count.
static LENT: RawWakerVTable = RawWakerVTable::new(clone_lent, wake_lent, wake_lent, drop_lent);
static KEPT: RawWakerVTable =
    RawWakerVTable::new(clone_kept, wake_kept, wake_kept_by_ref, drop_kept);

/// While this is alive, all clones that this thread makes have a place that is given.
struct GivenPlace(Option<PlaceNumber>);

impl GivenPlace {
    fn of(place: PlaceNumber) -> GivenPlace {
        GivenPlace(GIVEN.replace(Some(place)))
    }
}

impl Drop for GivenPlace {
    /// A waker that is cloned may panic.
    fn drop(&mut self) {
        GIVEN.set(self.0);
    }
}

/// Returns the poll with this address.
///
/// # Safety
///
/// The address is one of `RUNNING`, or that of an outer poll, or the data of a waker that is lent:
/// the poll goes on while the result is used.
unsafe fn poll_at<'a>(data: *const ()) -> &'a RunningPoll<'a> {
    unsafe { &*data.cast::<RunningPoll<'a>>() }
}

/// Returns the poll of this thread for which something holds, the innermost first, by what is
/// found of it.
fn find_running<T>(mut found: impl FnMut(*const (), &RunningPoll<'_>) -> Option<T>) -> Option<T> {
    let mut data = RUNNING.get();
    while !data.is_null() {
        // SAFETY: each poll is there until its guard restores the one that goes on around it.
        let running = unsafe { poll_at(data) };
        if let Some(found) = found(data, running) {
            return Some(found);
        }
        data = running.outer.load(Ordering::Relaxed);
    }
    None
}

/// Returns the number of the innermost task that this thread polls.
pub(super) fn innermost() -> Option<u64> {
    innermost_with_address().map(|(task, _)| task)
}

/// The same, with the address of the poll.
pub(super) fn innermost_with_address() -> Option<(u64, usize)> {
    find_running(|data, running| {
        let (task, _) = running.of.get()?;
        Some((task.number, data.addr()))
    })
}

/// Returns the task that ended last on this thread, if it has polled none since.
pub(super) fn ended() -> Option<u64> {
    ENDED.get()
}

/// Notes that a task ends on this thread, or one that isn't seen.
pub(super) fn note_end(task: Option<u64>) {
    // A thread that ends may drop it.
    let _ = ENDED.try_with(|ended| ended.set(task));
}

/// Has the polls of this thread seen by the recorder that is created in them.
pub(super) fn bind_outer() {
    let _: Option<()> = find_running(|_, running| {
        running.bind();
        None
    });
}

/// The same, and notes which actor the innermost one is.
pub(super) fn bind_running() {
    bind_outer();
    let innermost = find_running(|_, running| running.of.get().map(|(task, _)| task.clone()));
    if let Some(task) = innermost {
        task.note_actor();
    }
}

impl RunningPoll<'_> {
    /// Finds the task of a poll that has created its recorder: it is what its thread is blocked on.
    fn bind(&self) {
        if self.of.get().is_none() {
            let task = current().and_then(|it| it.add(name_of_blocked(), None));
            if let Some(task) = task {
                let number = task.begin(true);
                let _ = self.of.set((task, number));
            }
        }
    }

    /// Clones the waker, within the poll if `is_here`.
    fn clone_waker(&self, is_here: bool) -> KeptWaker {
        if is_here {
            self.bind();
        }
        let of = self.of.get();
        let place = of.filter(|_| is_here).map(|(task, _)| {
            let given = GIVEN.get();
            given.unwrap_or_else(|| task.place(ptr::from_ref(self).addr()))
        });
        // A poll around this one waits at the same place.
        let given = place.map(GivenPlace::of);
        let inner = self.inner.clone();
        drop(given);
        if let (Some((task, number)), Some(place)) = (of, place) {
            task.keeps(*number, place);
        }
        KeptWaker {
            inner,
            of: of.map(|(task, _)| task.clone()),
            poll: AtomicU64::new(place.and(of).map_or(0, |(_, number)| *number)),
            place: place.unwrap_or(PlaceNumber::UNKNOWN),
        }
    }
}

impl KeptWaker {
    fn note_wake(&self) {
        if let Some(task) = &self.of {
            let poll = self.poll.load(Ordering::Relaxed);
            task.woken((poll != 0).then_some((poll, self.place)));
        }
    }
}

impl Drop for KeptWaker {
    fn drop(&mut self) {
        let poll = *self.poll.get_mut();
        if let Some(task) = self.of.as_ref().filter(|_| poll != 0) {
            task.forgets(poll, self.place);
        }
    }
}

fn raw(kept: KeptWaker) -> RawWaker {
    RawWaker::new(Arc::into_raw(Arc::new(kept)).cast(), &KEPT)
}

unsafe fn clone_lent(data: *const ()) -> RawWaker {
    // SAFETY: the waker is borrowed, so its poll goes on.
    let running = unsafe { poll_at(data) };
    let is_here = find_running(|here, _| (here == data).then_some(())).is_some();
    raw(running.clone_waker(is_here))
}

unsafe fn wake_lent(data: *const ()) {
    // SAFETY: as above.
    let running = unsafe { poll_at(data) };
    if let Some((task, _)) = running.of.get() {
        task.woken(None);
    }
    running.inner.wake_by_ref();
}

unsafe fn drop_lent(_: *const ()) {}

unsafe fn clone_kept(data: *const ()) -> RawWaker {
    // SAFETY: the waker that is cloned owns a count, which stays its own.
    let kept = unsafe { ManuallyDrop::new(Arc::from_raw(data.cast::<KeptWaker>())) };
    // Within the poll that kept it, it is kept at one more place.
    let again = kept.of.as_ref().and_then(|task| {
        find_running(|_, running| {
            let (other, number) = running.of.get()?;
            let is_same = Arc::ptr_eq(other, task) && *number == kept.poll.load(Ordering::Relaxed);
            is_same.then(|| running.clone_waker(true))
        })
    });
    match again {
        Some(again) => raw(again),
        None => RawWaker::new(Arc::into_raw(Arc::clone(&kept)).cast(), &KEPT),
    }
}

unsafe fn wake_kept(data: *const ()) {
    // SAFETY: the count of the waker, which ends here.
    let kept = unsafe { Arc::from_raw(data.cast::<KeptWaker>()) };
    kept.note_wake();
    kept.inner.wake_by_ref();
}

unsafe fn wake_kept_by_ref(data: *const ()) {
    // SAFETY: the count of the waker, which stays its own.
    let kept = unsafe { ManuallyDrop::new(Arc::from_raw(data.cast::<KeptWaker>())) };
    kept.note_wake();
    kept.inner.wake_by_ref();
}

unsafe fn drop_kept(data: *const ()) {
    // SAFETY: the count of the waker, which ends here.
    drop(unsafe { Arc::from_raw(data.cast::<KeptWaker>()) });
}

/// Whether a waker that a channel of this crate has from an earlier poll wakes the same task as the
/// one that is lent to the current poll. Then it is kept again in this one.
pub(crate) fn renews(queued: &Waker, lent: &Waker) -> bool {
    if queued.will_wake(lent) {
        return true;
    }
    if !ptr::eq(queued.vtable(), &raw const KEPT) || !ptr::eq(lent.vtable(), &raw const LENT) {
        return false;
    }
    // SAFETY: the tables say what the data is, and both wakers are borrowed.
    let (kept, running) = unsafe { (&*queued.data().cast::<KeptWaker>(), poll_at(lent.data())) };
    let (Some(task), Some((polled, number))) = (&kept.of, running.of.get()) else {
        return false;
    };
    let is_same = Arc::ptr_eq(task, polled) && renews(&kept.inner, running.inner);
    if is_same && kept.poll.swap(*number, Ordering::Relaxed) != *number {
        task.keeps(*number, kept.place);
    }
    is_same
}

/// Clones the waker for a call of a channel of this crate, whose place needs no stack.
#[inline]
pub(crate) fn waker_of_call(method: &Method, context: &Context<'_>) -> Waker {
    match method.called_at {
        Some(at) if is_any_test() && !RUNNING.get().is_null() => {
            let _given = GivenPlace::of(places::of_call(method.name, at));
            context.waker().clone()
        }
        _ => context.waker().clone(),
    }
}

/// Ends a poll, or a function that is a whole task, also by a panic.
struct EndOfPoll<'a> {
    running: &'a RunningPoll<'a>,
    outer: *const (),
    is_ready: bool,
}

impl Drop for EndOfPoll<'_> {
    fn drop(&mut self) {
        RUNNING.set(self.outer);
        if let Some((task, _)) = self.running.of.get() {
            task.end(self.is_ready);
            ENDED.set(self.is_ready.then_some(task.number));
        }
    }
}

/// Polls a task by this function. Returns the task too, which a poll may find out that has created
/// its recorder.
pub(super) fn poll<T>(
    task: Option<&Arc<WatchedTask>>,
    context: &mut Context<'_>,
    poll: impl FnOnce(&mut Context<'_>) -> Poll<T>,
) -> (Poll<T>, Option<Arc<WatchedTask>>) {
    let running = RunningPoll {
        inner: context.waker(),
        of: OnceLock::new(),
        outer: AtomicPtr::new(RUNNING.get().cast_mut()),
    };
    ENDED.set(None);
    if let Some(task) = task {
        let number = task.begin(false);
        let _ = running.of.set((task.clone(), number));
    }
    let data: *const () = ptr::from_ref(&running).cast();
    let mut end = EndOfPoll {
        running: &running,
        outer: RUNNING.replace(data),
        is_ready: true,
    };
    // SAFETY: it is lent to the poll, which ends before `running` does, and is not dropped.
    let lent = ManuallyDrop::new(unsafe { Waker::from_raw(RawWaker::new(data, &LENT)) });
    let polled = poll(&mut Context::from_waker(&lent));
    end.is_ready = polled.is_ready();
    if polled.is_pending() && is_any_test() {
        running.bind();
    }
    drop(end);
    let task = running.of.get().map(|(task, _)| task.clone());
    (polled, task)
}

/// Runs a function that is a whole task.
pub(super) fn run<T>(task: Option<&Arc<WatchedTask>>, function: impl FnOnce() -> T) -> T {
    let waker = Waker::noop();
    let mut context = Context::from_waker(waker);
    match task {
        Some(_) => {
            let polled = poll(task, &mut context, |_| Poll::Ready(function())).0;
            let Poll::Ready(result) = polled else {
                unreachable!("the function has returned");
            };
            result
        }
        None => {
            ENDED.set(None);
            function()
        }
    }
}
