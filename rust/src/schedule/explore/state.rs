//! Who stands before the gate, and how the next one is chosen. The explorer locks it.

mod time;

use super::chooser::{Candidate, Chooser};
use super::clock::TestClock;
use super::explorer::Offered;
use super::fairness::{Fairness, PassedOver};
use super::order::Order;
use super::run::pause;
use super::schedule::{Schedule, Step, Turn, What};
use super::spinning::SpinDetector;
use super::stand::{Arrival, Stand};
use super::threads::{Asked, Sleeper, ThreadId, Threads, this_thread};
use crate::channels::actors::is_in_blocked_poll;
use crate::channels::whereabouts::PlaceNumber;
use std::sync::Arc;
use std::task::Waker;
use std::thread;
use std::time::{Duration, Instant};
use yovanelum_record::by_text::TextMap;
use yovanelum_record::listed::{IntoList, Keep, PushAll};
use yovanelum_record::numbered::{NumberMap, NumberSet};
use yovanelum_record::sorting::sort_by;

/// How many are let go in a run before all go on in any order.
const MOST_STEPS: usize = 50_000;

/// How often what is held comes round before its runtime is taken to have nothing else to do. A
/// runtime of tokio looks at its timers, and at the tasks that have yielded, every 61 polls.
const ROUNDS: usize = 128;

/// The name of time where it is chosen. No caller is first by name before it.
const TIME: &str = "(time)";

pub(super) struct ExplorerState {
    pub(super) stands: Vec<Stand>,
    pub(super) chooser: Chooser,
    pub(super) schedule: Schedule,
    pub(super) looks: SpinDetector,
    pub(super) threads: Threads,
    /// The clock by which the timers of the package end that stands for tokio.
    pub(super) clock: TestClock,
    /// What the helper is to wake, and how many it wakes now.
    pub(super) wakers: Vec<Waker>,
    pub(super) waking: usize,
    pub(super) is_helper_idle: bool,
    /// How often something has moved, and when it did last.
    pub(super) moves: u64,
    pub(super) moved_at: Instant,
    /// The thread of the test.
    main: ThreadId,
    /// Whether the runtime on it is let be idle.
    pub(super) is_let_idle: bool,
    is_time_offered: bool,
    last: Option<Arc<str>>,
    /// When each caller went last.
    went_at: TextMap<usize>,
    /// Timed waits that time was let pass for in vain.
    vain: Vec<Sleeper>,
    began: Instant,
    /// Whether a thread was seen to wait for the machine's clock.
    has_sleepers: bool,
    /// How long each step takes at least.
    pause: Duration,
    next_number: u64,
    /// How many have each name.
    names: TextMap<u32>,
    /// The threads that block on futures with names of their own.
    named_within: Vec<ThreadId>,
    pub(super) fairness: Fairness,
    pub(super) wait_places: WaitPlaces,
}

/// Where tasks wait.
#[derive(Clone, Default)]
pub(super) struct WaitPlaces {
    /// Where each one waits that is alive.
    pub(super) now: TextMap<PlaceNumber>,
    /// Where the one waited that was polled at this step, or where its call of tokio's own is made.
    pub(super) of_steps: Vec<(usize, PlaceNumber)>,
}

impl ExplorerState {
    pub(super) fn new(order: &Order, chooser: Chooser, offered: Offered) -> ExplorerState {
        let threads = Threads::of_this_process();
        let mut schedule = Schedule::new(order.to_string());
        schedule.by_clock = threads.is_by_clock();
        schedule.has_points = offered.points;
        ExplorerState {
            stands: Vec::new(),
            chooser,
            schedule,
            looks: SpinDetector::default(),
            threads,
            clock: TestClock::default(),
            wakers: Vec::new(),
            waking: 0,
            is_helper_idle: false,
            moves: 0,
            moved_at: Instant::now(),
            main: this_thread(),
            is_let_idle: order.has_timers,
            is_time_offered: offered.time,
            last: None,
            went_at: TextMap::new(),
            vain: Vec::new(),
            began: Instant::now(),
            has_sleepers: false,
            pause: pause(),
            next_number: 0,
            names: TextMap::new(),
            named_within: Vec::new(),
            fairness: Fairness::of_run(),
            wait_places: WaitPlaces::default(),
        }
    }

    /// Returns a name that no other caller has: this one, with a number from the second one on.
    pub(super) fn numbered(&mut self, name: &str) -> Arc<str> {
        let count = self.names.get_or_default(name);
        *count += 1;
        match count {
            1 => name.into(),
            count => format!("{name} {count}").into(),
        }
    }

    pub(super) fn moved(&mut self) {
        self.moves += 1;
        self.moved_at = Instant::now();
    }

    /// Adds one who stands from now on, on this thread.
    pub(super) fn add(&mut self, who: Arc<str>, arrival: Arrival) -> &mut Stand {
        let thread = this_thread();
        self.new_round(thread);
        let spins = thread == self.main && !self.is_let_idle;
        self.schedule.was_busy |= spins && matches!(arrival, Arrival::Poll);
        let number = self.next_number;
        self.next_number += 1;
        self.stands.push(Stand {
            who,
            arrival,
            thread,
            number,
            is_chosen: false,
            own: Arc::default(),
            waker: None,
            rounds: 0,
            spins,
            passed_over: PassedOver::default(),
            is_within: is_in_blocked_poll(),
        });
        let last = self.stands.len() - 1;
        &mut self.stands[last]
    }

    /// Begins to count rounds again, since something else happened on this thread.
    pub(super) fn new_round(&mut self, thread: ThreadId) {
        let here = self.stands.iter_mut();
        here.filter(|stand| stand.thread == thread)
            .for_each(|stand| stand.rounds = 0);
    }

    /// Begins to count rounds again on all threads, since something was woken. That may be the
    /// future on which a runtime blocks, and it is polled once in many rounds.
    pub(super) fn new_rounds(&mut self) {
        self.stands.iter_mut().for_each(|stand| stand.rounds = 0);
    }

    /// Returns the index of the poll of this task.
    pub(super) fn poll_of(&self, who: &Arc<str>) -> Option<usize> {
        let mut stands = self.stands.iter();
        stands.position(|stand| stand.is_poll() && stand.who == *who)
    }

    /// Notes that what this thread blocks on polls a future with a name, which stands by itself.
    pub(super) fn note_named(&mut self, thread: ThreadId) {
        if !self.named_within.contains(&thread) {
            self.named_within.push(thread);
        }
    }

    /// Whether what this thread blocks on goes without a choice: it has a future with a name, or
    /// one was let go that it polls.
    pub(super) fn is_free(&self, thread: ThreadId) -> bool {
        let mut stands = self.stands.iter();
        self.named_within.contains(&thread)
            || stands.any(|it| it.is_poll() && it.is_within && it.is_chosen && it.thread == thread)
    }

    /// Takes the stand of a poll out, since it goes on. Returns its waker.
    pub(super) fn take_poll(&mut self, index: usize) -> Option<Waker> {
        let stand = self.stands.swap_remove(index);
        self.new_round(this_thread());
        stand.waker
    }

    fn is_blocked(&self, thread: ThreadId) -> bool {
        let mut stands = self.stands.iter();
        stands.any(|stand| stand.is_blocking() && stand.thread == thread)
    }

    /// Whether a thread polls nothing but what is held back, again and again. Where what it blocks
    /// on is held back, nobody polls the tasks of its own.
    pub(super) fn only_holds(&self, thread: ThreadId) -> bool {
        let here = || self.stands.iter().filter(|stand| stand.thread == thread);
        let is_any_around = here().any(|stand| !stand.is_within);
        let here = || here().filter(|stand| !(stand.is_within && is_any_around));
        let is_held = |stand: &Stand| stand.spins && !stand.is_chosen && stand.rounds >= 2;
        let rounds: usize = here().map(|stand| stand.rounds).sum();
        rounds >= ROUNDS && here().all(|stand| stand.is_poll() && is_held(stand))
    }

    /// Whether one was chosen that has yet to go on.
    fn is_one_on_the_way(&mut self) -> bool {
        if self.waking > 0 || !self.wakers.is_empty() {
            return true;
        }
        let chosen = self.stands.iter().filter(|stand| stand.is_chosen);
        let spinning: Vec<ThreadId> = if chosen.clone().any(Stand::is_blocking) {
            return true;
        } else {
            chosen
                .filter(|stand| stand.spins)
                .map(|stand| stand.thread)
                .listed()
        };
        spinning
            .into_iter()
            .any(|thread| !self.is_blocked(thread) && !self.is_asleep(thread))
    }

    /// Whether this thread sleeps, for what no task of it is polled.
    fn is_asleep(&mut self, thread: ThreadId) -> bool {
        let asked = |other| {
            if other == thread && other != this_thread() {
                Asked::Sleeps
            } else {
                Asked::Nothing
            }
        };
        let still = Duration::ZERO;
        let sleepers = self.threads.sleepers(still, &asked);
        sleepers.is_some_and(|sleepers| !sleepers.is_empty())
    }

    /// Returns where the other threads sleep, if all do that don't stand. They have been looked at
    /// twice, and have slept at the same places.
    pub(super) fn rest(&mut self) -> Option<Vec<Sleeper>> {
        if self.is_one_on_the_way() {
            return None;
        }
        let first = self.look()?;
        let second = self.look()?;
        if first != second {
            return None;
        }
        self.has_sleepers |= first.iter().any(Sleeper::is_timed);
        let is_timer = |sleeper: &Sleeper| sleeper.thread == self.main && sleeper.is_timed();
        let has_polled = || {
            let mut stands = self.stands.iter();
            self.schedule.has_timers || stands.any(Stand::is_poll)
        };
        if first.iter().any(is_timer) && (has_polled() || self.has_gone_by_poll()) {
            self.schedule.has_timers = true;
        }
        Some(first)
    }

    /// Whether a task was polled.
    fn has_gone_by_poll(&self) -> bool {
        let mut steps = self.schedule.steps.iter().take(64);
        steps.any(|step| step.what == What::Poll)
    }

    fn look(&mut self) -> Option<Vec<Sleeper>> {
        let this = this_thread();
        let mut asked = NumberMap::new();
        for stand in &self.stands {
            let (is_blocked, thread) = (stand.is_blocking(), stand.thread);
            if is_blocked && !stand.is_chosen {
                asked.insert(thread, Asked::Nothing);
            } else if !is_blocked && stand.spins && !asked.contains_key(&thread) {
                let may_run = self.only_holds(thread);
                asked.insert(
                    thread,
                    if may_run {
                        Asked::MayRun
                    } else {
                        Asked::Sleeps
                    },
                );
            }
        }
        asked.insert(this, Asked::Nothing);
        let still = self.moved_at.elapsed();
        self.threads.sleepers(still, &|thread| {
            asked.get(&thread).copied().unwrap_or(Asked::Sleeps)
        })
    }

    /// Lets one go of those who stand, while the other threads sleep at these places.
    pub(super) fn choose(&mut self, rest: &[Sleeper]) {
        let mut candidates = self.candidates(rest);
        if candidates.is_empty() || self.follows_clock(&candidates) {
            return;
        }
        self.fairness.keep_fair(&mut candidates);
        if !self.pause.is_zero() {
            thread::sleep(self.pause);
        }
        let chosen = self.chooser.choose(&candidates);
        let last = self.last.as_ref();
        let could_go_on = candidates.iter().any(|other| Some(&other.who) == last);
        let Candidate {
            who, what, number, ..
        } = &candidates[chosen];
        self.schedule.steps.push(Step {
            chosen: chosen as u32,
            count: candidates.len() as u32,
            turn: if !could_go_on {
                Turn::Free
            } else if Some(who) == last {
                Turn::Same
            } else {
                Turn::Switch
            },
            what: what.clone(),
            at: self.place_of(*number),
            waited_for: None,
            who: who.clone(),
        });
        let place = match what {
            What::Poll => self.wait_places.now.remove(who),
            _ => self.standing(*number).and_then(Stand::place),
        };
        if let Some(Arrival::Point(point)) = self.standing(*number).map(|stand| &stand.arrival) {
            let point = *point;
            self.looks.passes(who, point);
        }
        self.schedule.note_clock(self.clock.now());
        let is_time = matches!(what, What::Time { .. });
        let is_poll = *what == What::Poll;
        self.fairness.chose(who, is_poll, candidates.len() > 1);
        self.note_passed_over(*number, is_time, is_poll, &candidates);
        let step = self.schedule.steps.len() - 1;
        let of_steps = &mut self.wait_places.of_steps;
        of_steps.push_all(place.map(|place| (step, place)));
        self.moved();
        if let What::Time { .. } = what {
            // Time is the switch, and whoever it wakes may go on.
            self.last = None;
            return self.let_time_pass(rest);
        }
        let (who, number) = (who.clone(), *number);
        self.went_at.insert(&who, self.schedule.steps.len());
        self.last = Some(who);
        self.let_go(number);
    }

    /// Counts for those who could have gone that others did, or time.
    fn note_passed_over(
        &mut self,
        chosen: u64,
        is_time: bool,
        is_poll: bool,
        candidates: &[Candidate],
    ) {
        let others = candidates.iter().map(|one| one.number);
        let others: NumberSet<u64> = others.filter(|number| *number != chosen).collect();
        for stand in &mut self.stands {
            if others.contains(&stand.number) {
                stand.passed_over.by_time += u32::from(is_time);
                stand.passed_over.by_polls += u32::from(is_poll);
            }
        }
    }

    fn standing(&self, number: u64) -> Option<&Stand> {
        self.stands.iter().find(|stand| stand.number == number)
    }

    fn place_of(&self, number: u64) -> Option<(String, u32)> {
        self.standing(number)?.called_at()
    }

    fn let_go(&mut self, number: u64) {
        let mut stands = self.stands.iter_mut();
        if let Some(stand) = stands.find(|stand| stand.number == number) {
            stand.is_chosen = true;
            match stand.waker.take() {
                Some(waker) => self.wakers.push(waker),
                None => stand.own.notify_all(),
            }
        }
    }

    /// Returns who may be let go. The first one goes on without a switch: the one that went last,
    /// or else the first by name.
    fn candidates(&self, rest: &[Sleeper]) -> Vec<Candidate> {
        let is_stuck = |stand: &Stand| {
            let sleeps = || rest.iter().any(|sleeper| sleeper.thread == stand.thread);
            stand.is_poll() && (self.is_blocked(stand.thread) || stand.spins && sleeps())
        };
        let open = self.stands.iter();
        let open = open.filter(|stand| !stand.is_chosen && !is_stuck(stand));
        let mut standing: Vec<&Stand> = open.listed();
        if standing.is_empty() {
            return Vec::new();
        }
        let is_idle = |stand: &Stand| self.looks.is_idle(&stand.who, stand.look());
        let is_any_busy = standing.iter().any(|stand| !is_idle(stand));
        if is_any_busy {
            standing.keep(|stand| !is_idle(stand));
        }
        let mut all: Vec<Candidate> = standing.iter().map(|stand| stand.candidate()).listed();
        sort_by(&mut all, |a, b| (&a.who, a.number).cmp(&(&b.who, b.number)));
        let is_passed = standing.iter().any(|it| self.fairness.forbids_time(it));
        let is_time_near = !is_passed && self.is_time_near(rest);
        let first = if is_any_busy {
            all.iter()
                .position(|one| Some(&one.who) == self.last.as_ref())
        } else {
            // They take turns.

            let went_at = |index: &usize| self.went_at.get(&all[*index].who);
            (0..all.len()).min_by_key(went_at)
        };
        let first = first.unwrap_or(0);
        all[..=first].rotate_right(1);
        if is_time_near {
            let time = Candidate {
                who: TIME.into(),
                what: What::Time { ready: ready(&all) },
                number: Candidate::TIME,
                passed_over: PassedOver::default(),
            };
            // Where all look at what doesn't change, time may change it.
            all.insert(if is_any_busy { all.len() } else { 0 }, time);
        }
        all
    }

    /// Whether the run has had so many steps that it goes on without an order.
    pub(super) fn is_too_long(&mut self) -> bool {
        self.schedule.was_too_long = self.schedule.steps.len() >= MOST_STEPS;
        self.schedule.was_too_long
    }
}

/// Says who stands. Of many, the first ones are named.
fn ready(standing: &[Candidate]) -> String {
    const NAMED: usize = 3;
    let named = standing.iter().take(NAMED);
    let named: Vec<_> = named.map(|one| format!("`{}`", one.who)).listed();
    match standing.len().saturating_sub(NAMED) {
        0 => named.join(", "),
        more => format!("{} and {more} more", named.join(", ")),
    }
}
