//! What the tasks of a test do between their calls: when each is polled, where it waits, and who
//! wakes it.
//!
//! A task's waker alone tells it, so each resource is seen, of whichever library. Each poll has a
//! waker of its own. Who clones that within the poll keeps it, and the return addresses on the
//! stack of the clone are where the task waits. Who wakes it is the task that is polled on that
//! thread. Nothing is measured where no test's recorder is alive.

mod budget;
mod frames;
mod places;
mod remembered;
mod task;
#[cfg(test)]
mod tests;
mod waker;

pub(crate) use frames::{StackStart, address_of};
pub(crate) use places::{KeptPlace, PlaceNumber, current_place, kept_place};
pub(crate) use task::{PollNoted, TaskNoted, WokenFrom};
pub(crate) use waker::{renews, waker_of_call};
use yovanelum_record::listed::IntoList;
use yovanelum_record::numbered::NumberMap;

use crate::channels::actors::{BlockedPoll, name_of_blocked, name_of_task, note_wait_of_thread};
use crate::channels::atomic::AtomicU64;
use crate::channels::lock::lock;
use crate::channels::recorder::{Recorder, Shared};
use crate::channels::turns::explored;
use budget::Budget;
use std::collections::VecDeque;
use std::sync::atomic::{AtomicBool, AtomicUsize, Ordering};
use std::sync::{Arc, Mutex, OnceLock, PoisonError, RwLock};
use std::task::{Context, Poll};
use std::time::{Duration, Instant};
use task::WatchedTask;
use yovanelum_record::clock::now;
use yovanelum_record::sorting::sort_by_key;

/// How many tasks of a test are known. Those that ended first are forgotten for later ones.
const MOST_TASKS: usize = 1024;

/// How many polls are kept of all tasks. Where there are more, each task forgets its first ones.
const MOST_POLLS: usize = 65_536;

/// By how many microseconds the clock of a runtime may be another than that of the machine.
const DRIFT: u128 = 1000;

/// After how many nanoseconds it is looked whether it is.
const BETWEEN_LOOKS: u64 = 1_000_000;

/// For how many at first each poll looks. Where the clock is paused, much of a test is over soon.
const FIRST_LOOKS: u64 = 5 * BETWEEN_LOOKS;

/// The clock of the runtime, read at a time between two others since a test began. A busy machine
/// may stop the thread that reads it.
struct ClockThere {
    clock: Instant,
    after: Duration,
    before: Duration,
}

impl ClockThere {
    fn read(clock: fn() -> Instant, begun: Instant) -> ClockThere {
        let after = begun.elapsed();
        ClockThere {
            clock: clock(),
            after,
            before: begun.elapsed(),
        }
    }

    /// By how many microseconds more, or less, it went on since then than the machine's, at least.
    fn drift_since(&self, first: &ClockThere) -> u128 {
        let there = self.clock.saturating_duration_since(first.clock);
        let least = self.after.saturating_sub(first.before);
        let most = self.before.saturating_sub(first.after);
        let drift = least.saturating_sub(there).max(there.saturating_sub(most));
        drift.as_micros()
    }
}

/// How many tests are alive.
static TESTS: AtomicUsize = AtomicUsize::new(0);

/// Whether a test's recorder is alive in this process.
#[inline]
fn is_any_test() -> bool {
    TESTS.load(Ordering::Relaxed) != 0
}

/// The clock of the runtime, which a test may pause.
static CLOCK: OnceLock<fn() -> Instant> = OnceLock::new();

/// Sets the function that reads the clock of the runtime. It is called where a thread ends too.
///
/// No part of what this crate promises: it is for the package that stands for tokio.
#[doc(hidden)]
pub fn set_clock(now: fn() -> Instant) {
    let _ = CLOCK.set(now);
}

/// What is seen of the tasks of a test.
pub(crate) struct WatchedTest {
    begun: Instant,
    // The clock of the runtime, as it was read first, if it is told.
    begun_there: Option<ClockThere>,
    recorder_id: u64,
    // Whether a journal or a search orders the calls, so that times are its own.
    is_ordered: bool,
    // Set as long as the test goes on. A wake may come from anywhere, also where the recorder must
    // not be dropped, so none drops it last: who ends the test holds it too.
    recorder: RwLock<Option<Arc<Shared>>>,
    // How many guards of the test are alive.
    guards: AtomicUsize,
    tasks: Mutex<WatchedTasks>,
    // Whether as many tasks are alive as are known at most.
    is_full: AtomicBool,
    // How many polls are kept of all tasks.
    polls: AtomicUsize,
    budget: Budget,
    // The least stamp from which on a place was not looked at.
    unknown_since: AtomicU64,
    is_paused: AtomicBool,
    // When it was last looked whether it is.
    looked: AtomicU64,
}

#[derive(Default)]
struct WatchedTasks {
    by_number: NumberMap<u64, Arc<WatchedTask>>,
    next: u64,
    // Those that have ended, the first one first.
    ended: VecDeque<u64>,
}

/// What was seen up to now.
pub(crate) struct NotedTasks {
    pub(crate) tasks: Vec<TaskNoted>,
    pub(crate) has_times: bool,
    pub(crate) now: u64,
    pub(crate) unknown_since: Option<u64>,
}

impl Shared {
    /// Begins to see the tasks of the test that this records. Where there is no clock, nothing is
    /// seen.
    pub(crate) fn begin_watching(self: &Arc<Shared>) {
        if self.is_off() {
            return;
        }
        let Some(begun) = now() else {
            return;
        };
        let watched = self.watched.get_or_init(|| {
            let is_ordered = self.turns.is_some() || explored().is_some();
            Arc::new(WatchedTest::new(self.id, begun, is_ordered))
        });
        if watched.guards.fetch_add(1, Ordering::SeqCst) == 0 {
            watched.set_recorder(Some(self.clone()));
            TESTS.fetch_add(1, Ordering::Relaxed);
        }
    }

    /// Ends it, with the last guard of the test.
    pub(crate) fn end_watching(&self) {
        let Some(watched) = self.watched.get() else {
            return;
        };
        if watched.guards.fetch_sub(1, Ordering::SeqCst) == 1 {
            TESTS.fetch_sub(1, Ordering::Relaxed);
            watched.set_recorder(None);
            // Tasks have their wakers elsewhere, and what they wait for may outlive the test.
            let forgotten = std::mem::take(&mut *lock(&watched.tasks));
            watched.is_full.store(false, Ordering::Relaxed);
            drop(forgotten);
        }
    }

    /// Whether a task was seen since the recorder was created.
    pub(crate) fn has_seen_tasks(&self) -> bool {
        let watched = self.watched.get();
        watched.is_some_and(|watched| lock(&watched.tasks).next > 0)
    }

    /// Returns what was seen of the tasks of the test up to now, if anything was.
    pub(crate) fn tasks_noted(&self) -> Option<NotedTasks> {
        let watched = self.watched.get()?;
        waker::bind_running();
        watched.look_at_clock();
        let tasks: Vec<_> = lock(&watched.tasks).by_number.values().cloned().listed();
        let mut tasks: Vec<_> = tasks.iter().map(|task| task.noted()).listed();
        sort_by_key(&mut tasks, |task| task.number);
        let unknown = watched.unknown_since.load(Ordering::Relaxed);
        let noted = NotedTasks {
            tasks,
            now: watched.now(),
            has_times: !watched.is_ordered && !watched.is_paused.load(Ordering::Relaxed),
            unknown_since: (unknown != u64::MAX).then_some(unknown),
        };
        (!noted.tasks.is_empty()).then_some(noted)
    }
}

impl WatchedTest {
    fn new(recorder_id: u64, begun: Instant, is_ordered: bool) -> WatchedTest {
        WatchedTest {
            begun,
            begun_there: CLOCK.get().map(|clock| ClockThere::read(*clock, begun)),
            recorder_id,
            is_ordered,
            recorder: RwLock::new(None),
            guards: AtomicUsize::new(0),
            tasks: Mutex::default(),
            is_full: AtomicBool::new(false),
            polls: AtomicUsize::new(0),
            budget: Budget::default(),
            unknown_since: AtomicU64::new(u64::MAX),
            is_paused: AtomicBool::new(false),
            looked: AtomicU64::new(0),
        }
    }

    fn set_recorder(&self, recorder: Option<Arc<Shared>>) {
        let mut held = self
            .recorder
            .write()
            .unwrap_or_else(PoisonError::into_inner);
        let before = std::mem::replace(&mut *held, recorder);
        drop(held);
        drop(before);
    }

    /// Returns the greatest stamp so far, while the test goes on.
    fn last(&self) -> Option<u64> {
        let held = self.recorder.read().unwrap_or_else(PoisonError::into_inner);
        held.as_ref().map(|recorder| recorder.last())
    }

    /// Returns the nanoseconds since the test began.
    fn now(&self) -> u64 {
        self.begun.elapsed().as_nanos() as u64
    }

    /// Looks whether the clock of the runtime is paused. It must not be called within a wake, where
    /// the runtime may have locked its clock.
    fn look_at_clock(&self) {
        let (Some(clock), Some(first)) = (CLOCK.get(), &self.begun_there) else {
            return;
        };
        if ClockThere::read(*clock, self.begun).drift_since(first) > DRIFT {
            self.is_paused.store(true, Ordering::Relaxed);
        }
    }

    /// The same, if the last look isn't a short time ago.
    fn look_at_clock_at(&self, now: u64) {
        let since = now.saturating_sub(self.looked.load(Ordering::Relaxed));
        if since > BETWEEN_LOOKS || now < FIRST_LOOKS {
            self.looked.store(now, Ordering::Relaxed);
            self.look_at_clock();
        }
    }

    /// Returns a new task, unless as many are alive as are known at most.
    fn add(
        self: &Arc<WatchedTest>,
        name: Arc<str>,
        within: Option<u64>,
    ) -> Option<Arc<WatchedTask>> {
        let mut tasks = lock(&self.tasks);
        let forgotten = match tasks.by_number.len() {
            MOST_TASKS.. => {
                let first = tasks.ended.pop_front();
                self.is_full.store(first.is_none(), Ordering::Relaxed);
                tasks.by_number.remove(&first?)
            }
            _ => None,
        };
        let number = tasks.next;
        tasks.next += 1;
        let task = Arc::new(WatchedTask::new(self.clone(), number, name, within));
        tasks.by_number.insert(number, task.clone());
        drop(tasks);
        drop(forgotten);
        Some(task)
    }

    /// Notes that a task has ended.
    fn ended(&self, number: u64) {
        let mut tasks = lock(&self.tasks);
        if tasks.by_number.contains_key(&number) {
            tasks.ended.push_back(number);
            self.is_full.store(false, Ordering::Relaxed);
        }
    }

    /// Notes that a place is not looked at.
    fn leave_unknown(&self, stamp: u64) {
        self.unknown_since.fetch_min(stamp, Ordering::Relaxed);
    }
}

/// Returns what is seen of the test whose recorder is entered on this thread.
fn current() -> Option<Arc<WatchedTest>> {
    if !is_any_test() {
        return None;
    }
    let recorder = Recorder::current()?;
    let watched = recorder.0.watched.get()?;
    watched.last().map(|_| watched.clone())
}

/// Where a task, a future with a name, or one that a thread is blocked on keeps what is seen of its
/// polls.
///
/// No part of what this crate promises: it is public for the package that stands for tokio.
#[doc(hidden)]
#[derive(Default)]
pub struct SeenPolls(Seeing);

/// What is seen of a task.
#[derive(Default)]
enum Seeing {
    /// Nothing, as far as is known.
    #[default]
    Nothing,
    /// Nothing, as long as so many others are alive in its test.
    TooMany(Arc<WatchedTest>),
    Task(Arc<WatchedTask>),
}

impl Seeing {
    /// That of a task of this test.
    fn of(test: Arc<WatchedTest>, name: impl FnOnce() -> Arc<str>) -> Seeing {
        let is_full = test.is_full.load(Ordering::Relaxed);
        let added = (!is_full).then(|| test.add(name(), waker::innermost()));
        added.flatten().map_or(Seeing::TooMany(test), Seeing::Task)
    }
}

impl SeenPolls {
    /// Returns where it has waited since its last poll, as far as that is known.
    pub(crate) fn waits_at(&self) -> Option<PlaceNumber> {
        self.task()?.waits_at()
    }

    /// Drops its future by this function. Whom that wakes, its end does, and not that of a task
    /// which ended before on this thread.
    pub(crate) fn drop_future(&self, drop: impl FnOnce()) {
        if is_any_test() {
            waker::note_end(self.task().map(|task| task.number));
        }
        drop();
    }

    fn task(&self) -> Option<&Arc<WatchedTask>> {
        match &self.0 {
            Seeing::Task(task) => Some(task),
            _ => None,
        }
    }

    /// Returns the task, as soon as there is room for it in its test.
    fn find(&mut self, name: impl FnOnce() -> Arc<str>) -> Option<&Arc<WatchedTask>> {
        let may_be_new = match &self.0 {
            Seeing::TooMany(test) => !test.is_full.load(Ordering::Relaxed),
            Seeing::Nothing => true,
            Seeing::Task(_) => false,
        };
        if may_be_new {
            self.0 = current().map_or(Seeing::Nothing, |test| Seeing::of(test, name));
        }
        self.task()
    }

    /// Polls a task by this function, as the caller that is current.
    #[inline]
    pub(crate) fn poll_task<T>(
        &mut self,
        context: &mut Context<'_>,
        poll: impl FnOnce(&mut Context<'_>) -> Poll<T>,
    ) -> Poll<T> {
        if !is_any_test() {
            return poll(context);
        }
        if matches!(self.0, Seeing::Nothing) {
            waker::bind_outer();
        }
        match self.find(name_of_task) {
            Some(task) => waker::poll(Some(task), context, poll).0,
            None => poll(context),
        }
    }

    /// Polls the future that a thread is blocked on. Its first poll may create the recorder.
    #[inline]
    pub fn poll_blocked<T>(
        &mut self,
        context: &mut Context<'_>,
        poll: impl FnOnce(&mut Context<'_>) -> Poll<T>,
    ) -> Poll<T> {
        let task = self.find(name_of_blocked);
        let is_new = task.is_none();
        let within = BlockedPoll::enter();
        let (polled, task) = waker::poll(task, context, poll);
        drop(within);
        if let Some(task) = task.filter(|_| is_new) {
            self.0 = Seeing::Task(task);
        }
        if polled.is_pending() {
            note_wait_of_thread(self);
        }
        polled
    }
}

impl Drop for SeenPolls {
    fn drop(&mut self) {
        if let Some(task) = self.task() {
            task.is_over();
            // One that is aborted ends without a poll.
            waker::note_end(Some(task.number));
        }
    }
}

impl std::fmt::Debug for SeenPolls {
    fn fmt(&self, f: &mut std::fmt::Formatter<'_>) -> std::fmt::Result {
        f.debug_struct("SeenPolls").finish_non_exhaustive()
    }
}

/// Runs a function that is a whole task, on a thread on which it may block.
#[inline]
pub(crate) fn run_whole<T>(function: impl FnOnce() -> T) -> T {
    if !is_any_test() {
        return function();
    }
    let task = current().and_then(|it| it.add(name_of_task(), None));
    waker::run(task.as_ref(), function)
}
