//! Where a replay stands, and who waits for their turn. The gate locks it.

use super::clock::{RunningClock, Time};
use super::divergence::Divergence;
use super::outcome;
use super::plan::{NONE, Plan};
use super::waiters::Waiters;
use super::{ArrivingCall, Identity};
use crate::channels::backend::Actor;
use crate::channels::channel::CallSite;
use crate::channels::turns::Ticket;
use yovanelum_record::by_text::{TextMap, TextSet};
use yovanelum_record::listed::{IntoList, Keep, PushAll};

use crate::schedule::explore::ThreadId;
use std::task::Waker;
use std::{iter, mem};
use yovanelum_record::operation::Operation;

/// How many tasks without a call in the journal are held back at most.
const UNKNOWN_HELD: usize = 16;

/// How many tasks are known apart that poll the calls of a lane.
const MOST_TASKS: usize = 8;

/// What a call that comes is to the journal.
#[derive(Clone, Copy, PartialEq, Eq, Debug)]
pub(super) enum Standing {
    /// It is the next call.
    Turn,
    /// It is a later one.
    Later,
    /// The next call of its lane is another one, this step.
    Other(u32),
    /// The journal has no more of its lane.
    Unknown,
}

/// A future that waits before the gate.
pub(super) struct Waiter {
    pub(super) waker: Waker,
    pub(super) coming: ArrivingCall,
    pub(super) since: Time,
}

impl Waiter {
    /// The future of this call, which waits from now on, or has waited since it did so before.
    pub(super) fn new(
        coming: ArrivingCall,
        waker: Waker,
        before: Option<&Waiter>,
        now: Time,
    ) -> Waiter {
        Waiter {
            waker,
            coming,
            since: before.map_or(now, |before| before.since),
        }
    }
}

/// A named future whose poll is held back.
pub(super) struct HeldPoll {
    pub(super) waker: Waker,
    pub(super) since: Time,
}

pub(super) struct Lane {
    pub(super) front: u32,
    /// How many threads are blocked that are to be woken for it.
    pub(super) blocked: u32,
    /// Who has used the handle.
    pub(super) user: Option<Identity>,
    /// The wakers of its calls that were polled by nobody with a name, in the order in which they
    /// came first. None wakes the same task as another one.
    tasks: Vec<Waker>,
}

pub(super) struct OfActor {
    pub(super) front: u32,
    /// How many threads are blocked before a closure that changes a watch.
    pub(super) blocked: u32,
    /// The thread on which it was seen last, or 0.
    pub(super) thread: usize,
    /// The actor whose future polls that of this one.
    pub(super) within: Option<u32>,
    pub(super) held: Vec<HeldPoll>,
    /// That of its future's last poll, unless it was used since.
    pub(super) waker: Option<Waker>,
    /// At this position its polls aren't held back.
    pub(super) passes_at: Option<usize>,
    /// The last question that it asked of those which leave no entry.
    pub(super) asked: Option<ArrivingCall>,
    /// Where it made its last call that has a place.
    pub(super) called_at: CallSite,
}

/// Tasks that make no call in the journal. Each is held back once, until nobody else goes on: what
/// the others wait for may be what it does, or it may make a call that comes behind the journal's,
/// and block their thread.
#[derive(Default)]
struct UnknownTasks {
    held: Vec<(String, HeldPoll)>,
    /// Those that were let go.
    free: TextSet,
}

pub(super) struct GateState {
    /// How many calls were made. So it is the index of the step whose turn it is.
    pub(super) position: usize,
    /// Whether a caller was given the turn, and has yet to make the call.
    pub(super) is_given: bool,
    pub(super) lanes: Vec<Lane>,
    pub(super) actors: Vec<OfActor>,
    pub(super) waiters: Waiters,
    next_ticket: u64,
    /// How many polls are held back.
    held_count: usize,
    /// Those of tasks that make no call in the journal.
    unknown: UnknownTasks,
    /// The threads that are blocked.
    pub(super) blocked: Vec<ThreadId>,
    /// Whether the helper sleeps until it is notified.
    pub(super) is_helper_idle: bool,
    /// What the helper is to wake.
    pub(super) woken: Vec<Waker>,
    pub(super) clock: RunningClock,
    pub(super) turned_at: Time,
    /// The index of the call before which a debugger stops, until it has.
    pub(super) stop_at: Option<usize>,
    pub(super) is_over: bool,
    /// Whether it was said how the replay went, and whether somebody has asked.
    pub(super) is_told: bool,
    pub(super) is_asked: bool,
    /// Why the run left the journal's order.
    pub(super) divergence: Option<Divergence>,
    /// What several callers share first who can't be told apart.
    pub(super) shared: Option<String>,
    /// Whether a task without a name has made a call, or a test's body without one.
    pub(super) has_unnamed_tasks: bool,
    /// The threads of runtimes, as far as named futures are polled there.
    runtime_threads: Vec<usize>,
    /// Who has made channels, by their names.
    makers: TextMap<Identity>,
    /// Who has made the last channel under no name.
    nameless_maker: Option<Identity>,
    /// The first value with another text than in the journal.
    pub(super) other_text: Option<String>,
}

/// Whom a turn wakes.
#[derive(Default)]
pub(super) struct Wakes {
    pub(super) lane: Option<u32>,
    pub(super) actor: Option<u32>,
    pub(super) helper: bool,
}

impl GateState {
    pub(super) fn new(plan: &Plan) -> GateState {
        let lane = |front: &u32| Lane {
            front: *front,
            blocked: 0,
            user: None,
            tasks: Vec::new(),
        };
        let actor = |front: &u32| OfActor {
            front: *front,
            blocked: 0,
            thread: 0,
            within: None,
            held: Vec::new(),
            waker: None,
            passes_at: None,
            asked: None,
            called_at: None,
        };
        let mut clock = RunningClock::new();
        GateState {
            position: 0,
            is_given: false,
            lanes: plan.first_of_lane.iter().map(lane).listed(),
            actors: plan.first_of_actor.iter().map(actor).listed(),
            waiters: Waiters::default(),
            next_ticket: 0,
            held_count: 0,
            unknown: UnknownTasks::default(),
            blocked: Vec::new(),
            is_helper_idle: false,
            woken: Vec::new(),
            turned_at: clock.now(),
            clock,
            stop_at: None,
            is_over: plan.steps.is_empty(),
            is_told: false,
            is_asked: false,
            divergence: None,
            shared: None,
            has_unnamed_tasks: false,
            runtime_threads: Vec::new(),
            makers: TextMap::new(),
            nameless_maker: None,
            other_text: None,
        }
    }

    /// Returns what a call is to the journal.
    pub(super) fn standing(&self, plan: &Plan, lane: Option<u32>, word: Operation) -> Standing {
        let Some(lane) = lane else {
            return Standing::Unknown;
        };
        let front = self.lanes[lane as usize].front;
        let Some(step) = plan.steps.get(front as usize) else {
            return Standing::Unknown;
        };
        let is_the_word = step.call.word == word;
        if is_the_word && front as usize == self.position && !self.is_given {
            Standing::Turn
        } else if is_the_word || plan.is_shared[lane as usize] {
            // Another word may be the call of another caller, who has yet to come.
            Standing::Later
        } else {
            Standing::Other(front)
        }
    }

    /// Returns what a closure that changes a watch is to the journal. Its own calls come before its
    /// entry, so it begins where the next call of its actor is the turn.
    pub(super) fn standing_to_modify(&self, plan: &Plan, lane: Option<u32>) -> Standing {
        match self.standing(plan, lane, Operation::Modify) {
            Standing::Later if self.is_next_of_actor(self.actor_of(plan, lane)) => Standing::Turn,
            other => other,
        }
    }

    /// Returns the actor in the journal of the next call of this lane.
    pub(super) fn actor_of(&self, plan: &Plan, lane: Option<u32>) -> usize {
        let front = lane.map_or(NONE, |lane| self.lanes[lane as usize].front);
        let step = plan.steps.get(front as usize);
        step.map_or(Actor::MOST - 1, |step| step.call.actor as usize)
    }

    /// Whether the call whose turn it is is one of this lane.
    pub(super) fn is_front(&self, lane: Option<u32>) -> bool {
        lane.is_some_and(|lane| self.lanes[lane as usize].front as usize == self.position)
    }

    fn is_next_of_actor(&self, actor: usize) -> bool {
        self.actors[actor].front as usize == self.position && !self.is_given
    }

    /// Records who has used a handle, and on which thread. The first handle that several use who
    /// can't be told apart is noted.
    pub(super) fn see(
        &mut self,
        plan: &Plan,
        lane: Option<u32>,
        coming: &ArrivingCall,
        user: &Identity,
    ) {
        let of = &mut self.actors[coming.actor.number() as usize];
        of.called_at = coming.called_at.or(of.called_at);
        if plan.is_named(coming.actor) {
            of.thread = user.thread();
        }
        if coming.word == Operation::Drop {
            return;
        }
        self.see_unnamed(user);
        let Some(lane) = lane else { return };
        let before = &mut self.lanes[lane as usize].user;
        match before {
            Some(before) if before.is_same(user) => (),
            Some(before) => {
                if before.is_alive() && self.shared.is_none() {
                    self.shared = Some(outcome::shared_handle(
                        plan,
                        coming,
                        before.may_be_moved(user),
                    ));
                }
                *before = user.clone();
            }
            None => *before = Some(user.clone()),
        }
    }

    /// Notes whether this caller is a task without a name: its runtime says so, or nothing but its
    /// thread is known, and a runtime polls tasks there.
    fn see_unnamed(&mut self, user: &Identity) {
        self.has_unnamed_tasks |= user.is_unnamed_task()
            || user.may_be_task() && self.runtime_threads.contains(&user.thread());
    }

    /// Records that a runtime polls a future with a name on this thread.
    pub(super) fn see_runtime(&mut self, thread: usize) {
        if !self.runtime_threads.contains(&thread) {
            self.runtime_threads.push(thread);
        }
    }

    /// Whether this task, known by its waker, is the one that has polled the last call of this
    /// lane.
    pub(super) fn is_last_task(&self, lane: Option<u32>, waker: &Waker) -> bool {
        let tasks = lane.map(|lane| &self.lanes[lane as usize].tasks);
        let last = tasks.and_then(|tasks| tasks.last());
        last.is_some_and(|task| task.will_wake(waker))
    }

    /// Records that the task without a name which has used a handle is polled on another thread
    /// now.
    pub(super) fn move_to(&mut self, lane: Option<u32>, user: &Identity) {
        let Some(lane) = lane else { return };
        let before = &mut self.lanes[lane as usize].user;
        if before.as_ref().is_some_and(Identity::is_thread_alone) {
            *before = Some(user.clone());
        }
    }

    /// Records which task polls a call, by its waker, where nothing else tells the tasks of a
    /// thread apart. A task that comes back to a handle after another one shares it with that one.
    /// If a task only comes later than another one, the handle may have been given on. Returns the
    /// waker, unless it is stored.
    pub(super) fn see_task(
        &mut self,
        plan: &Plan,
        lane: Option<u32>,
        coming: &ArrivingCall,
        waker: Waker,
    ) -> Option<Waker> {
        let Some(lane) = lane.filter(|_| self.shared.is_none() && !self.is_over) else {
            return Some(waker);
        };
        let tasks = &mut self.lanes[lane as usize].tasks;
        let found = tasks.iter().position(|task| task.will_wake(&waker));
        match found {
            Some(index) if index + 1 < tasks.len() => {
                self.shared = Some(outcome::shared_handle(plan, coming, false));
            }
            None if tasks.len() < MOST_TASKS => {
                tasks.push(waker);
                return None;
            }
            _ => (),
        }
        Some(waker)
    }

    /// Records who has made a channel under this name, or under none.
    pub(super) fn see_maker(&mut self, name: Option<&str>, user: Identity) {
        let before = match name {
            Some(name) => self.makers.insert(name, user.clone()),
            None => self.nameless_maker.replace(user.clone()),
        };
        let is_other = before.is_some_and(|before| before.is_alive() && !before.is_same(&user));
        if is_other && self.shared.is_none() {
            self.shared = Some(outcome::shared_making(name));
        }
    }

    /// Goes on to the next step, since the call whose turn it was is made.
    pub(super) fn advance(&mut self, plan: &Plan) -> Wakes {
        let step = &plan.steps[self.position];
        self.lanes[step.lane as usize].front = step.next_in_lane;
        self.actors[step.call.actor as usize].front = step.next_of_actor;
        self.position += 1;
        self.is_given = false;
        self.turned_at = self.clock.now();
        self.release(step.call.actor);
        self.wakes(plan)
    }

    /// Returns whom the turn of the next step wakes.
    pub(super) fn wakes(&mut self, plan: &Plan) -> Wakes {
        let mut wakes = Wakes::default();
        if let Some(step) = plan.steps.get(self.position) {
            let (lane, actor) = (step.lane, step.call.actor);
            wakes.lane = (self.lanes[lane as usize].blocked > 0).then_some(lane);
            wakes.actor = (self.actors[actor as usize].blocked > 0).then_some(actor);
            self.release(actor);
            while let Some(ticket) = self.waiters.first_of(lane) {
                self.woken
                    .push_all(self.waiters.remove(&ticket).map(|waiter| waiter.waker));
            }
        }
        wakes.helper = !self.woken.is_empty();
        wakes
    }

    /// Hands the held futures of an actor to the helper: what it may do next has changed.
    pub(super) fn release(&mut self, actor: u32) {
        let held = self.actors[actor as usize].held.drain(..);
        self.held_count -= held.len();
        self.woken.push_all(held.map(|held| held.waker));
    }

    /// Holds back the poll of a future, until its actor is released.
    pub(super) fn hold(&mut self, actor: u32, waker: Waker) -> Option<Waker> {
        let since = self.clock.now();
        let held = &mut self.actors[actor as usize].held;
        if held.iter().any(|before| before.waker.will_wake(&waker)) {
            return Some(waker);
        }
        held.push(HeldPoll { waker, since });
        self.held_count += 1;
        None
    }

    /// Whether the poll of a task with this name is held back, which makes no call in the journal.
    /// Where many were let go, so are all: they aren't what keeps others away.
    pub(super) fn holds_unknown(&mut self, name: &str, waker: Waker) -> bool {
        let of = &mut self.unknown;
        if of.free.contains(name) || of.free.len() >= UNKNOWN_HELD {
            return false;
        }
        let since = self.clock.now();
        let held = HeldPoll { waker, since };
        match of.held.iter_mut().find(|(other, _)| *other == name) {
            Some((_, before)) => before.waker = held.waker,
            None => {
                of.held.push((name.to_string(), held));
                self.held_count += 1;
            }
        }
        true
    }

    /// Hands the first task to the helper that makes no call in the journal, if it has waited for
    /// as long as this function says. The others wait on: perhaps it is the one that is needed.
    pub(super) fn release_unknown(&mut self, is_long: impl Fn(&HeldPoll) -> bool) {
        if self
            .unknown
            .held
            .first()
            .is_some_and(|(_, held)| is_long(held))
        {
            let (name, held) = self.unknown.held.remove(0);
            self.held_count -= 1;
            self.unknown.free.insert(&name);
            self.woken.push(held.waker);
        }
    }

    /// Whether a poll is held back.
    pub(super) fn is_any_held(&self) -> bool {
        self.held_count > 0
    }

    /// Removes a thread from those that are blocked.
    pub(super) fn unblock(&mut self, thread: ThreadId) {
        self.blocked.keep(|other| *other != thread);
    }

    /// Whether a future waits or is held back, or a thread is blocked.
    pub(super) fn is_anyone_waiting(&self) -> bool {
        self.held_count > 0 || !self.blocked.is_empty() || !self.waiters.is_empty()
    }

    /// Hands the futures of all actors to the helper, those too that wait for something else.
    pub(super) fn wake_all(&mut self) {
        let wakers = self.actors.iter_mut().filter_map(|of| of.waker.take());
        self.woken.push_all(wakers);
    }

    /// Whether the future of an actor is that of the other one, or is polled by it.
    pub(super) fn is_within(&self, actor: u32, other: u32) -> bool {
        let outer = |actor: &u32| self.actors[*actor as usize].within;
        let mut outwards = iter::successors(Some(actor), outer).take(Actor::MOST);
        outwards.any(|actor| actor == other)
    }

    /// Hands all futures to the helper.
    pub(super) fn release_all(&mut self) {
        let unknown = mem::take(&mut self.unknown.held);
        self.held_count -= unknown.len();
        self.woken
            .push_all(unknown.into_iter().map(|(_, held)| held.waker));
        for actor in 0..self.actors.len() {
            self.release(actor as u32);
        }
        let waiters = std::mem::take(&mut self.waiters).into_values();
        let wakers = waiters.into_iter().map(|waiter| waiter.waker);
        self.woken.push_all(wakers);
        for lane in &mut self.lanes {
            self.woken.append(&mut lane.tasks);
        }
        self.wake_all();
    }

    /// Adds a future that waits for this lane.
    pub(super) fn add_waiter(&mut self, lane: Option<u32>, waiter: Waiter) -> Ticket {
        let ticket = (lane.unwrap_or(NONE), self.next_ticket);
        self.next_ticket += 1;
        self.waiters.insert(ticket, waiter);
        ticket
    }
}
