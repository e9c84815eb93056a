//! What is noted of a task: its last polls, where each waited at its end, and who woke it then.

use super::places::{self, PlaceNumber};
use super::{MOST_POLLS, WatchedTest, budget, waker};
use crate::channels::actors::number_of_caller;
use crate::channels::lock::lock;
use crate::channels::reentrant::thread_number;
use std::collections::VecDeque;
use std::sync::atomic::Ordering;
use std::sync::{Arc, Mutex};
use std::thread;
use yovanelum_record::listed::IntoList;

/// How many polls are kept of a task. Older ones are forgotten.
const MOST_OF_TASK: usize = 256;

/// How many are kept of each task where all have as many as are kept.
const LEAST_OF_TASK: usize = 8;

/// How many places are kept of a poll.
const MOST_PLACES: usize = 4;

/// How many places are noted during a poll.
const MOST_KEPT: usize = 16;

/// A task, a future with a name, or what a thread is blocked on.
pub(super) struct WatchedTask {
    pub(super) watched: Arc<WatchedTest>,
    pub(super) number: u64,
    name: Arc<str>,
    /// The task in whose polls it is polled.
    within: Option<u64>,
    state: Mutex<TaskState>,
}

#[derive(Default)]
struct TaskState {
    polls: VecDeque<PollNoted>,
    /// How many there were.
    count: u64,
    actor: Option<u64>,
    is_over: bool,
    /// Where the waker of the last poll is kept, the last place last, and how many of its clones
    /// are alive at each.
    kept: Vec<(PlaceNumber, u32)>,
}

/// A poll of a task. Times are nanoseconds since the test began.
#[derive(Clone)]
pub(crate) struct PollNoted {
    pub(crate) begin: u64,
    pub(crate) end: Option<u64>,
    /// The greatest stamp before it, and at its end.
    pub(crate) before: u64,
    pub(crate) after: u64,
    pub(crate) thread: usize,
    /// Where its waker was kept at its end, the last first.
    pub(crate) places: [Option<PlaceNumber>; MOST_PLACES],
    pub(crate) woken: Option<WakeNoted>,
}

/// A wake of a task.
#[derive(Clone)]
pub(crate) struct WakeNoted {
    pub(crate) at: u64,
    /// The greatest stamp then.
    pub(crate) stamp: u64,
    pub(crate) by: WokenFrom,
    pub(crate) place: PlaceNumber,
    /// Where the waker was kept, if that was in the last poll.
    pub(crate) kept_at: Option<PlaceNumber>,
    /// Whether the thread panicked then, and so what it held was dropped.
    pub(crate) in_panic: bool,
}

/// Who wakes a task.
#[derive(Clone)]
pub(crate) enum WokenFrom {
    /// The task with this number.
    Task(u64),
    /// A thread that polls none, and the task that ended last on it, since when it has polled none.
    Thread(Option<Arc<str>>, Option<u64>),
}

/// What is noted of a task.
pub(crate) struct TaskNoted {
    pub(crate) number: u64,
    pub(crate) name: Arc<str>,
    pub(crate) within: Option<u64>,
    pub(crate) actor: Option<u64>,
    pub(crate) is_over: bool,
    pub(crate) polls: Vec<PollNoted>,
}

impl WatchedTask {
    pub(super) fn new(
        watched: Arc<WatchedTest>,
        number: u64,
        name: Arc<str>,
        within: Option<u64>,
    ) -> WatchedTask {
        WatchedTask {
            watched,
            number,
            name,
            within,
            state: Mutex::default(),
        }
    }

    /// Notes that a poll begins, and returns its number. That of the poll which created the
    /// recorder began before the test did.
    pub(super) fn begin(&self, has_created_recorder: bool) -> u64 {
        let (now, last) = (self.watched.now(), self.watched.last());
        self.watched.look_at_clock_at(now);
        let mut state = lock(&self.state);
        state.count += 1;
        state.kept.clear();
        if let Some(last) = last {
            let (begin, before) = if has_created_recorder {
                (0, 0)
            } else {
                (now, last)
            };
            self.make_room(&mut state);
            state.polls.push_back(PollNoted {
                begin,
                end: None,
                before,
                after: before,
                thread: thread_number(),
                places: [None; MOST_PLACES],
                woken: None,
            });
        }
        state.count
    }

    /// Forgets the first poll, if as many are kept as can be.
    fn make_room(&self, state: &mut TaskState) {
        let of_all = &self.watched.polls;
        let is_full = of_all.load(Ordering::Relaxed) >= MOST_POLLS;
        let most = if is_full { LEAST_OF_TASK } else { MOST_OF_TASK };
        if state.polls.len() >= most {
            state.polls.pop_front();
        } else {
            of_all.fetch_add(1, Ordering::Relaxed);
        }
    }

    /// Notes that the last poll ends.
    pub(super) fn end(&self, is_ready: bool) {
        let (now, last) = (self.watched.now(), self.watched.last());
        let actor = number_of_caller(self.watched.recorder_id);
        let mut state = lock(&self.state);
        state.actor = actor.or(state.actor);
        let state = &mut *state;
        if let (Some(last), Some(poll)) = (last, state.polls.back_mut()) {
            let alive = state.kept.iter().rev().filter(|(_, count)| *count > 0);
            for (free, (place, _)) in poll.places.iter_mut().zip(alive) {
                *free = Some(*place);
            }
            (poll.end, poll.after) = (Some(now), last);
        }
        if is_ready {
            self.set_over(state);
        }
    }

    /// Notes that it is dropped.
    pub(super) fn is_over(&self) {
        self.set_over(&mut lock(&self.state));
    }

    fn set_over(&self, state: &mut TaskState) {
        if !state.is_over {
            state.is_over = true;
            self.watched.ended(self.number);
        }
    }

    /// Returns the last place where its last poll has kept its waker.
    pub(super) fn waits_at(&self) -> Option<PlaceNumber> {
        let state = lock(&self.state);
        let kept = state.polls.back()?.places.iter().flatten().next();
        kept.copied().filter(|place| *place != PlaceNumber::UNKNOWN)
    }

    /// Notes the actor that this thread runs, while the task is polled by it.
    pub(super) fn note_actor(&self) {
        let actor = number_of_caller(self.watched.recorder_id);
        let mut state = lock(&self.state);
        state.actor = actor.or(state.actor);
    }

    /// Returns the place where the waker of the current poll is cloned. `limit` is the address of
    /// the poll's frame.
    pub(super) fn place(&self, limit: usize) -> PlaceNumber {
        places::here(&self.watched, Some(limit), &|now| self.may_look(now))
    }

    /// Whether it is looked where the current poll waits. If not, that is noted.
    fn may_look(&self, now: u64) -> bool {
        let (poll, waited) = {
            let state = lock(&self.state);
            let mut last = state.polls.iter().rev();
            let begin = last.next().map_or(0, |poll| poll.begin);
            let end = last.next().and_then(|poll| poll.end);
            (
                state.count,
                end.map_or(u64::MAX, |end| begin.saturating_sub(end)),
            )
        };
        let may_look = self.watched.budget.allows(now, poll, waited);
        if !may_look {
            let stamp = self.watched.last();
            self.watched.leave_unknown(stamp.unwrap_or(u64::MAX));
        }
        may_look
    }

    /// Notes that one more waker of the poll with this number is kept at this place.
    pub(super) fn keeps(&self, poll: u64, place: PlaceNumber) {
        let mut state = lock(&self.state);
        if state.count != poll {
            return;
        }
        // The last place is last.
        let known = state.kept.iter().position(|(other, _)| *other == place);
        let count = known.map_or(0, |known| state.kept.remove(known).1);
        if state.kept.len() < MOST_KEPT {
            state.kept.push((place, count + 1));
        }
    }

    /// Notes that a waker of the poll with this number is dropped that was kept at this place.
    pub(super) fn forgets(&self, poll: u64, place: PlaceNumber) {
        let mut state = lock(&self.state);
        if state.count == poll {
            let mut kept = state.kept.iter_mut();
            if let Some((_, count)) = kept.find(|(other, _)| *other == place) {
                *count = count.saturating_sub(1);
            }
        }
    }

    /// Notes that it is woken, by a waker that was kept in the poll with this number at this place,
    /// if it was. It may be called by whoever has locked what the task waits for, so nothing is
    /// locked here while anything else is called.
    pub(super) fn woken(&self, kept: Option<(u64, PlaceNumber)>) {
        let (end, after, count) = {
            let state = lock(&self.state);
            match state.polls.back().filter(|poll| poll.woken.is_none()) {
                Some(poll) => (poll.end, poll.after, state.count),
                None => return,
            }
        };
        let (at, Some(stamp)) = (self.watched.now(), self.watched.last()) else {
            return;
        };
        let waited = end.map_or(0, |end| at.saturating_sub(end));
        // After a short wait without a call, it makes no difference. By a clock that is paused, a
        // short one may be long.
        let is_long = waited >= budget::LONG || self.watched.is_paused.load(Ordering::Relaxed);
        let matters = end.is_some() && (is_long || stamp > after);
        let may_look = |now| self.watched.budget.allows(now, count, waited);
        let place = |limit| {
            if matters {
                places::here(&self.watched, limit, &may_look)
            } else {
                PlaceNumber::UNKNOWN
            }
        };
        let (by, place) = match waker::innermost_with_address() {
            Some((task, address)) => (WokenFrom::Task(task), place(Some(address))),
            None => {
                let name = matters.then(|| thread::current().name().map(Into::into));
                (
                    WokenFrom::Thread(name.flatten(), waker::ended()),
                    place(None),
                )
            }
        };
        let mut state = lock(&self.state);
        let last = state.count;
        if let Some(poll) = state.polls.back_mut().filter(|poll| poll.woken.is_none()) {
            poll.woken = Some(WakeNoted {
                at,
                stamp,
                by,
                place,
                kept_at: kept
                    .filter(|(poll, _)| *poll == last)
                    .map(|(_, place)| place),
                in_panic: thread::panicking(),
            });
        }
    }

    /// Returns what is noted of it.
    pub(super) fn noted(&self) -> TaskNoted {
        let state = lock(&self.state);
        TaskNoted {
            number: self.number,
            name: self.name.clone(),
            within: self.within,
            actor: state.actor,
            is_over: state.is_over,
            polls: state.polls.iter().cloned().listed(),
        }
    }
}

impl Drop for WatchedTask {
    fn drop(&mut self) {
        let polls = lock(&self.state).polls.len();
        self.watched.polls.fetch_sub(polls, Ordering::Relaxed);
    }
}
