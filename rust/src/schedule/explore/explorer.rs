//! The gate of a run that is explored: each call stands before it, and each poll of a named task,
//! until it is let go.
//!
//! When all other threads of the process sleep, one of those who stand is let go, and goes on until
//! it stands again or sleeps elsewhere. Nobody specific is waited for, so the gate itself has no
//! deadlock.

use super::chooser::Chooser;
use super::order::Order;
use super::schedule::{RunEnd, Schedule};
use super::spinning::CallInSource;
use super::stand::{Arrival, ArrivingPoint, Stand};
use super::state::{ExplorerState, WaitPlaces};
use super::threads::{OURS, this_thread};
use crate::channels::actors::{
    self, is_in_blocked_poll, is_in_task, last_task, note_facade, set_last_task,
};
use crate::channels::timers::Timers;
use crate::channels::turns::{ArrivingCall, Tasks, TestEnd, Ticket, Turns};
use crate::channels::whereabouts::{PlaceNumber, current_place};
use crate::schedule::entrance::Entrance;
use std::cell::OnceCell;
use std::io;
use std::sync::atomic::{AtomicU32, Ordering};
use std::sync::{Arc, MutexGuard, PoisonError};
use std::task::{Context, Poll, Waker};
use std::thread;
use std::time::{Duration, Instant};
use yovanelum_record::listed::{Keep, PushAll};
use yovanelum_record::operation::CallSet;
use yovanelum_record::sidecar::Maker;

/// What the name of a thread begins with that runs any task of tokio.
const WORKER: &str = "tokio-runtime-worker";

thread_local! {
    // The name of this thread, which no other caller has.
    static THREAD: OnceCell<Arc<str>> = const { OnceCell::new() };
}

/// What a poll comes to.
#[derive(Clone, Copy, PartialEq, Eq)]
enum PollOutcome {
    Goes,
    Held,
    /// It is held, and its task wakes itself.
    HeldAwake,
}

/// The gate of a run that is explored.
pub(crate) struct Explorer {
    pub(super) entrance: Entrance<ExplorerState>,
    channels: AtomicU32,
    /// Whether calls of tokio's own are chosen too.
    has_points: bool,
}

/// What is chosen in a run beside calls on recorded channels and polls.
#[derive(Clone, Copy)]
pub(super) struct Offered {
    pub(super) time: bool,
    /// Calls of tokio's own.
    pub(super) points: bool,
}

impl Explorer {
    /// # Errors
    ///
    /// Returns an error if the order follows a file that can't be read.
    pub(super) fn new(order: &Order, offered: Offered) -> io::Result<Explorer> {
        let chooser = Chooser::new(order)?;
        let state = ExplorerState::new(order, chooser, offered);
        Ok(Explorer {
            entrance: Entrance::new(state, false),
            channels: AtomicU32::new(0),
            has_points: offered.points,
        })
    }

    /// Blocks until the call is let go. Returns `false` if all calls pass.
    fn wait(&self, arrival: Arrival) -> bool {
        if self.entrance.is_over() {
            return false;
        }
        let mut state = self.entrance.enter();
        let who = who(&mut state);
        self.wait_as(state, who, arrival)
    }

    /// Blocks until this caller is let go. Returns `false` if all calls pass.
    fn wait_as(
        &self,
        mut state: MutexGuard<'_, ExplorerState>,
        who: Arc<str>,
        arrival: Arrival,
    ) -> bool {
        state.moved();
        let stand = state.add(who, arrival);
        let (number, own) = (stand.number, stand.own.clone());
        // Whoever comes last chooses, without a switch of threads.
        self.try_choose(&mut state);
        loop {
            let mut stands = state.stands.iter();
            let Some(index) = stands.position(|stand| stand.number == number) else {
                return false;
            };
            if state.stands[index].is_chosen || self.entrance.is_over() {
                state.stands.swap_remove(index);
                state.moved();
                break;
            }
            self.entrance.keep_awake(state.is_helper_idle);
            state = own.wait(state).unwrap_or_else(PoisonError::into_inner);
        }
        drop(state);
        !self.entrance.is_over()
    }

    /// Notes that this call is made now, which has passed here. Nobody else goes on before it is
    /// made. `has_unread` says whether its receiver has anything to receive.
    fn goes(&self, coming: &ArrivingCall, has_unread: bool) {
        let mut state = self.entrance.enter();
        let who = who(&mut state);
        state.looks.goes(&who, CallInSource::of(coming), has_unread);
    }

    /// Returns what the poll of a task comes to, and a waker that is used no longer.
    fn poll(
        &self,
        state: &mut ExplorerState,
        who: &Arc<str>,
        waker: Waker,
    ) -> (PollOutcome, Option<Waker>) {
        let this = this_thread();
        let Some(index) = state.poll_of(who) else {
            let stand = state.add(who.clone(), Arrival::Poll);
            if stand.spins {
                return (PollOutcome::HeldAwake, Some(waker));
            }
            return (PollOutcome::Held, stand.waker.replace(waker));
        };
        let stand = &mut state.stands[index];
        if stand.is_chosen {
            return (PollOutcome::Goes, state.take_poll(index));
        }
        stand.thread = this;
        stand.rounds += 1;
        if !stand.spins {
            return (PollOutcome::Held, stand.waker.replace(waker));
        }
        if state.only_holds(this) {
            self.try_choose(state);
            let index = state.poll_of(who);
            if let Some(index) = index.filter(|index| state.stands[*index].is_chosen) {
                return (PollOutcome::Goes, state.take_poll(index));
            }
        }
        (PollOutcome::HeldAwake, Some(waker))
    }

    /// Whether the poll of a task is held back, or of what a thread blocks on. Then it is woken
    /// later.
    fn hold_poll(
        &self,
        mut state: MutexGuard<'_, ExplorerState>,
        who: &Arc<str>,
        waker: Waker,
    ) -> bool {
        state.moved();
        let (polled, left) = self.poll(&mut state, who, waker);
        if polled != PollOutcome::Goes {
            self.entrance.keep_awake(state.is_helper_idle);
        }
        drop(state);
        match left {
            // It wakes itself at once, so that its runtime has something to do.
            Some(waker) if polled == PollOutcome::HeldAwake => waker.wake(),
            left => drop(left),
        }
        polled != PollOutcome::Goes
    }

    /// Lets one go, if all others sleep.
    pub(super) fn try_choose(&self, state: &mut ExplorerState) {
        if !self.entrance.is_still() {
            return;
        }
        let Some(rest) = state.rest() else { return };
        if !self.entrance.is_still() {
            return;
        }
        self.choose(state, &rest);
    }

    /// Lets one go while the other threads sleep at these places, or run on.
    pub(super) fn choose(&self, state: &mut ExplorerState, rest: &[super::threads::Sleeper]) {
        state.choose(rest);
        if state.is_too_long() {
            self.open(state);
        }
        if !state.wakers.is_empty() {
            self.entrance.helper.notify_one();
        }
    }

    /// Lets all go from now on.
    fn open(&self, state: &mut ExplorerState) {
        self.entrance.open();
        for stand in &mut state.stands {
            stand.own.notify_all();
            state.wakers.push_all(stand.waker.take());
        }
        let of_timers = state.clock.leave();
        state.wakers.push_all(of_timers);
        state.stands.keep(Stand::is_blocking);
        self.entrance.helper.notify_all();
    }

    /// Lets all go from now on, and returns what the run has been, with the places where tasks
    /// waited.
    pub(super) fn end(&self, end: RunEnd) -> (Schedule, WaitPlaces) {
        let mut state = self.entrance.lock();
        state.schedule.lost = state.lost();
        self.open(&mut state);
        state.schedule.end = end;
        state.schedule.diverged = state.chooser.diverged();
        (state.schedule.clone(), state.wait_places.clone())
    }
}

/// No call gives its turn on: whoever is let go goes on until it stands again.
impl Turns for Explorer {
    fn follows_journal(&self) -> bool {
        false
    }

    fn see_maker(&self, _name: Option<&str>) {}

    fn channel_by(&self, _maker: &Maker) -> Option<u32> {
        Some(self.channels.fetch_add(1, Ordering::Relaxed))
    }

    fn pass(&self, coming: ArrivingCall, has_unread: &dyn Fn() -> bool) -> bool {
        if self.wait(Arrival::Call(coming)) {
            let takes = coming.word.is(CallSet::TAKES);
            self.goes(&coming, takes && has_unread());
        }
        false
    }

    fn pass_to_modify(&self, coming: ArrivingCall) {
        self.wait(Arrival::Call(coming));
    }

    /// Blocks the thread, whose task was let go before.
    fn poll(
        &self,
        coming: ArrivingCall,
        has_unread: &dyn Fn() -> bool,
        _ticket: &mut Option<Ticket>,
        _context: &Context<'_>,
    ) -> Poll<bool> {
        Poll::Ready(self.pass(coming, has_unread))
    }

    /// It is no call that could be chosen.
    fn note_question(&self, _coming: ArrivingCall) {}

    fn leave(&self, _ticket: Ticket) {}

    fn made(&self, _text: Option<&str>) {}

    fn give_back(&self) {}

    fn would_wait(&self) {}

    fn conclude(&self, _end: TestEnd<'_>) {}
}

impl Tasks for Explorer {
    fn hold(&self, task: &mut Option<Arc<str>>, name: &str, context: &Context<'_>) -> bool {
        if self.entrance.is_over() || is_in_task() {
            return false;
        }
        // Wakers run code of the runtime where they are cloned and dropped, so nothing is locked
        // there.
        let waker = context.waker().clone();
        let mut state = self.entrance.enter();
        let who = task.get_or_insert_with(|| state.numbered(name)).clone();
        set_last_task(&who);
        self.hold_poll(state, &who, waker)
    }

    fn hold_named(&self, future: &mut Option<Arc<str>>, name: &str, context: &Context<'_>) -> bool {
        if is_in_blocked_poll() && !is_in_task() && !self.entrance.is_over() {
            self.entrance.enter().note_named(this_thread());
        }
        self.hold(future, name, context)
    }

    fn hold_thread(&self, context: &Context<'_>) -> bool {
        if self.entrance.is_over() {
            return false;
        }
        let waker = context.waker().clone();
        let mut state = self.entrance.enter();
        if state.is_free(this_thread()) {
            drop(state);
            return false;
        }
        let who = who(&mut state);
        self.hold_poll(state, &who, waker)
    }

    fn begin_blocking(&self, task: &mut Option<Arc<str>>, name: &str) {
        if self.entrance.is_over() {
            return;
        }
        let mut state = self.entrance.enter();
        let who = task.get_or_insert_with(|| state.numbered(name)).clone();
        let called = "spawn_blocking";
        let begins = Arrival::Point(ArrivingPoint { called, at: None });
        self.wait_as(state, who, begins);
    }

    fn waits(&self, task: Option<&Arc<str>>, at: PlaceNumber) {
        if !self.entrance.is_over() {
            let mut state = self.entrance.enter();
            let who = task.cloned().unwrap_or_else(|| who(&mut state));
            state.wait_places.now.insert(&who, at);
        }
    }

    fn leave(&self, task: &Arc<str>) {
        if !is_in_task() {
            set_last_task(task);
        }
        let mut state = self.entrance.enter();
        let index = state.poll_of(task);
        let left = index.map(|index| state.stands.swap_remove(index));
        state.wait_places.now.remove(task);
        state.moved();
        drop(state);
        drop(left);
    }

    fn stand_at(&self, called: &'static str) {
        if !self.has_points || self.entrance.is_over() || is_outside_of_tasks() {
            return;
        }
        note_facade();
        let at = Some(current_place());
        self.wait(Arrival::Point(ArrivingPoint { called, at }));
    }
}

/// Whether this is a thread of tokio's that runs no task, or one of this crate.
fn is_outside_of_tasks() -> bool {
    let thread = thread::current();
    let name = thread.name().unwrap_or_default();
    name.as_bytes().starts_with(OURS) || name.starts_with(WORKER) && !is_in_task()
}

/// The timers of the package that stands for tokio end by the clock of the run.
impl Timers for Explorer {
    fn now(&self) -> Option<Duration> {
        let state = self.entrance.enter();
        (!self.entrance.is_over()).then(|| state.clock.now())
    }

    fn due(&self, deadline: Instant) -> Duration {
        self.entrance.enter().clock.due(deadline)
    }

    fn set(&self, due: Duration) -> u64 {
        self.entrance.enter().clock.set(due)
    }

    fn poll(&self, number: u64, context: &Context<'_>) -> Option<bool> {
        if self.entrance.is_over() {
            return None;
        }
        let waker = context.waker().clone();
        let mut state = self.entrance.enter();
        if self.entrance.is_over() {
            drop(state);
            return None;
        }
        state.moved();
        let (has_ended, left) = state.clock.wait(number, waker);
        self.entrance.keep_awake(state.is_helper_idle);
        drop(state);
        drop(left);
        Some(has_ended)
    }

    fn remove(&self, number: u64) {
        let left = self.entrance.enter().clock.remove(number);
        drop(left);
    }
}

/// Returns who calls: the outermost task, or the thread.
fn who(state: &mut ExplorerState) -> Arc<str> {
    if is_in_task() {
        if let Some(task) = last_task() {
            return task;
        }
    }
    let thread = thread::current();
    let name = actors::name_of_caller();
    if name.is_none() || thread.name().is_some_and(|name| name.starts_with(WORKER)) {
        state.schedule.unnamed += 1;
    }
    let name = name.unwrap_or_else(|| format!("{:?}", thread.id()));
    let known = THREAD.try_with(|thread| thread.get_or_init(|| state.numbered(&name)).clone());
    known.unwrap_or_else(|_| name.into())
}
