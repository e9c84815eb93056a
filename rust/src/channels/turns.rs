//! Whose turn it is, where something orders the calls on channels: a journal that is replayed, or a
//! search for a failing order. Channels and tasks ask here. The layer above answers, by the traits
//! of this file.

use crate::channels::backend::Actor;
use crate::channels::channel::CallSite;
use crate::channels::recorder::NotedPanic;
use crate::channels::timers::Timers;
use crate::channels::whereabouts::PlaceNumber;
use std::mem;
use std::sync::atomic::{AtomicBool, Ordering};
use std::sync::{Arc, OnceLock};
use std::task::{Context, Poll};
use yovanelum_record::operation::Operation;
use yovanelum_record::sidecar::Maker;

/// A call that comes to a gate: on which channel of the journal, by which handle, what, and who
/// calls.
#[derive(Clone, Copy)]
pub(crate) struct ArrivingCall {
    pub(crate) channel: u32,
    pub(crate) handle: u32,
    pub(crate) word: Operation,
    pub(crate) actor: Actor,
    pub(crate) called_at: CallSite,
}

/// By what a future waits before the gate: its lane, and its number there.
pub(crate) type Ticket = (u32, u64);

/// How a test has ended whose calls were ordered.
#[derive(Clone, Copy)]
pub(crate) enum TestEnd<'a> {
    Passed,
    /// It failed, with these panics.
    Failed(&'a [NotedPanic]),
    /// That isn't known here.
    Unknown,
}

/// What orders the calls of channels. Each asks before it acquires a lock.
pub(crate) trait Turns: Send + Sync {
    /// Whether a journal orders the calls.
    fn follows_journal(&self) -> bool;

    /// Records who has made a channel under this name, or under none.
    fn see_maker(&self, name: Option<&str>);

    /// Returns the number of the channel that this caller makes now, if its calls are ordered.
    fn channel_by(&self, maker: &Maker) -> Option<u32>;

    /// Blocks until the turn of this call. `has_unread` says whether its receiver has anything to
    /// receive. Returns whether the call was given the turn, and has to give it on.
    fn pass(&self, coming: ArrivingCall, has_unread: &dyn Fn() -> bool) -> bool;

    /// Blocks until the turn of what a closure that changes a watch does: of the first call that it
    /// makes, or of the change.
    fn pass_to_modify(&self, coming: ArrivingCall);

    /// Polls a call that waits: it is pending until its turn, and waits before the gate by the
    /// ticket. It returns what [`pass`](Turns::pass) does.
    fn poll(
        &self,
        coming: ArrivingCall,
        has_unread: &dyn Fn() -> bool,
        ticket: &mut Option<Ticket>,
        context: &Context<'_>,
    ) -> Poll<bool>;

    /// Notes a question that leaves no entry, and so isn't ordered.
    fn note_question(&self, coming: ArrivingCall);

    /// Removes a future that no longer waits before the gate.
    fn leave(&self, ticket: Ticket);

    /// Goes on to the next call, since the one with the permit is made. `text` is that of the value
    /// that it has sent.
    fn made(&self, text: Option<&str>);

    /// Gives the turn back, since the call with the permit wasn't made.
    fn give_back(&self);

    /// Leaves the order: the call with the permit would wait, which was answered in the journal.
    fn would_wait(&self);

    /// Lets all calls pass, since the recorder's last handle is dropped, or its test ends.
    fn conclude(&self, end: TestEnd<'_>);
}

/// The right to make the next call of a replay. It holds no lock. Without a replay, and once all
/// calls pass, a call is asked for none.
#[must_use]
pub(crate) struct Permit<'a>(&'a Arc<dyn Turns>);

impl<'a> Permit<'a> {
    /// Gives the turn to the next call: this one is made and recorded. `text` is that of the value
    /// that it has sent. The channel is still locked, so no other call of it comes in between.
    #[inline]
    pub(crate) fn made(self, text: Option<&str>) {
        self.used().made(text);
    }

    /// Leaves the order of the journal: the call would wait, which was answered there.
    #[inline]
    pub(crate) fn would_wait(self) {
        self.used().would_wait();
    }

    /// Returns what orders the calls, without giving the turn back to it.
    #[inline]
    fn used(self) -> &'a Arc<dyn Turns> {
        let turns = self.0;
        mem::forget(self);
        turns
    }
}

impl Drop for Permit<'_> {
    /// Gives the turn back, since the call wasn't made, as where a panic came in between.
    #[inline]
    fn drop(&mut self) {
        self.0.give_back();
    }
}

/// A channel whose calls are ordered.
pub(crate) struct OrderedChannel {
    turns: Arc<dyn Turns>,
    /// Its number in the journal.
    number: u32,
    /// Whether its recording has ended. Then its calls pass: the journal doesn't have them.
    is_free: AtomicBool,
}

impl OrderedChannel {
    pub(crate) fn new(turns: Arc<dyn Turns>, number: u32) -> OrderedChannel {
        OrderedChannel {
            turns,
            number,
            is_free: AtomicBool::new(false),
        }
    }

    /// What orders its calls.
    pub(crate) fn turns(&self) -> &dyn Turns {
        &*self.turns
    }

    /// Blocks until the turn of this call: see [`Turns::pass`].
    pub(crate) fn pass(
        &self,
        coming: ArrivingCall,
        has_unread: &dyn Fn() -> bool,
    ) -> Option<Permit<'_>> {
        self.permit(self.turns.pass(coming, has_unread))
    }

    /// Polls a call that waits: see [`Turns::poll`].
    pub(crate) fn poll(
        &self,
        coming: ArrivingCall,
        has_unread: &dyn Fn() -> bool,
        ticket: &mut Option<Ticket>,
        context: &Context<'_>,
    ) -> Poll<Option<Permit<'_>>> {
        let polled = self.turns.poll(coming, has_unread, ticket, context);
        polled.map(|is_given| self.permit(is_given))
    }

    /// Returns the permit of a call that was given the turn. For another call none is made, since a
    /// permit that is dropped gives the turn back.
    fn permit(&self, is_given: bool) -> Option<Permit<'_>> {
        is_given.then(|| Permit(&self.turns))
    }

    /// Lets all calls of this channel pass.
    pub(crate) fn set_free(&self) {
        self.is_free.store(true, Ordering::Relaxed);
    }

    /// Returns this call as it comes, unless the channel's calls pass by.
    pub(crate) fn coming(
        &self,
        handle: u32,
        word: Operation,
        actor: Actor,
        called_at: CallSite,
    ) -> Option<ArrivingCall> {
        if self.is_free.load(Ordering::Relaxed) {
            return None;
        }
        Some(ArrivingCall {
            channel: self.number,
            handle,
            word,
            actor,
            called_at,
        })
    }
}

/// What holds back the polls of tasks, so that none blocks a thread that is to run another one.
pub(crate) trait Polls: Send + Sync {
    /// Whether the poll of the future with this name is held back: by the order of the recorder
    /// whose calls it makes, or of the current one if that isn't known yet. `task` is its own, and
    /// what a run that is explored knows of the future.
    fn hold(
        &self,
        name: &str,
        task: &mut Option<Arc<str>>,
        recorder: Option<u64>,
        context: &Context<'_>,
    ) -> bool;

    /// Whether the poll of a task with this name, or with none, is held back, as that of a future
    /// with a name is. A run that is explored holds it otherwise.
    fn hold_task(
        &self,
        name: Option<&Arc<str>>,
        recorder: Option<u64>,
        context: &Context<'_>,
    ) -> bool;

    /// Whether the poll of a future on which this thread blocks is held back.
    fn hold_thread(&self, context: &Context<'_>) -> bool;
}

/// What holds polls back once a journal is replayed in this process, or a run is explored. Named
/// futures ask this at each poll.
static POLLS: OnceLock<&'static dyn Polls> = OnceLock::new();

/// Lets futures ask at each poll whether it is held back.
pub(crate) fn ask_at_polls(polls: &'static dyn Polls) {
    POLLS.get_or_init(|| polls);
}

/// Whether the poll of a future is held back: see [`Polls::hold`].
#[inline]
pub(crate) fn holds(
    name: &str,
    task: &mut Option<Arc<str>>,
    recorder: Option<u64>,
    context: &Context<'_>,
) -> bool {
    let polls = POLLS.get();
    polls.is_some_and(|polls| polls.hold(name, task, recorder, context))
}

/// Whether the poll of a task is held back: see [`Polls::hold_task`].
#[inline]
pub(crate) fn holds_task(
    name: Option<&Arc<str>>,
    recorder: Option<u64>,
    context: &Context<'_>,
) -> bool {
    let polls = POLLS.get();
    polls.is_some_and(|polls| polls.hold_task(name, recorder, context))
}

/// Whether the poll of a future on which this thread blocks is held back by an open gate, since the
/// next call of the thread would block the tasks that it runs too.
///
/// No part of what this crate promises: it is for the package that stands for tokio.
#[doc(hidden)]
#[inline]
pub fn is_thread_held(context: &Context<'_>) -> bool {
    POLLS.get().is_some_and(|polls| polls.hold_thread(context))
}

/// What chooses the polls of the tasks of a run that is explored.
pub(crate) trait Tasks: Send + Sync {
    /// Whether the poll of the future with this name is held back. Then its task is woken later.
    /// `task` is its own, and has its name from the first poll on. One that is polled by another
    /// named future goes with that one.
    fn hold(&self, task: &mut Option<Arc<str>>, name: &str, context: &Context<'_>) -> bool;

    /// The same of a future with a name, which may be all that a thread blocks on.
    fn hold_named(&self, future: &mut Option<Arc<str>>, name: &str, context: &Context<'_>) -> bool;

    /// Whether the poll of a future on which this thread blocks is held back. It goes with those
    /// tasks that it polls itself, as one of a `LocalSet`, and with its future that has a name.
    fn hold_thread(&self, context: &Context<'_>) -> bool;

    /// Blocks this thread until a function goes on that is given to it, which is the task with this
    /// name. `task` is its own, and has its name from here on.
    fn begin_blocking(&self, task: &mut Option<Arc<str>>, name: &str);

    /// Notes where this task waits, behind a poll of it, or what this thread blocks on.
    fn waits(&self, task: Option<&Arc<str>>, at: PlaceNumber);

    /// Leaves the gate, since this task is dropped. Its drop makes its calls under its name.
    fn leave(&self, task: &Arc<str>);

    /// Blocks the thread until its call of tokio's own, as `Mutex::lock`, is let go.
    fn stand_at(&self, called: &'static str);
}

/// The run of a process that is explored.
pub(crate) struct Explored {
    pub(crate) turns: Arc<dyn Turns>,
    pub(crate) tasks: Arc<dyn Tasks>,
    pub(crate) timers: Arc<dyn Timers>,
}

static EXPLORED: OnceLock<Explored> = OnceLock::new();

/// Has the run of this process explored, from now on.
pub(crate) fn explore(explored: Explored) {
    EXPLORED.get_or_init(|| explored);
}

/// Returns the run of this process, if it is one that is explored.
pub(crate) fn explored() -> Option<&'static Explored> {
    EXPLORED.get()
}
