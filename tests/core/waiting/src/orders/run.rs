//! One run of a play: its threads take turns, in an order that a path chooses.

use super::path::Path;
use super::search::Search;
use super::state::{Content, Needs, State, Status, Thread, digest_of};
use std::any::Any;
use std::mem;
use std::panic::resume_unwind;
use std::sync::{Condvar, Mutex, MutexGuard};

/// How a run ended.
#[derive(Debug)]
pub(super) enum End {
    /// All threads have.
    Done,
    /// In a state that is known.
    Known,
    /// Threads sleep, and none can go on.
    Asleep(String),
    /// A thread has made too many steps while nothing changed.
    Spins(String),
    Panics(String),
}

/// How many threads a play has at most.
const MOST_THREADS: usize = 4;

/// With this a thread unwinds when the run has ended before it.
struct RunEnded;

#[derive(Debug)]
struct Inside {
    state: State,
    path: Path,
    end: Option<End>,
}

#[derive(Debug)]
pub(super) struct Run {
    search: Search,
    inside: Mutex<Inside>,
    /// Notified when it is the thread's turn, or when the run has ended.
    turns: [Condvar; MOST_THREADS],
}

impl Run {
    pub(super) fn new(search: Search, path: Path) -> Run {
        let inside = Inside {
            state: State::default(),
            path,
            end: None,
        };
        Run {
            search,
            inside: Mutex::new(inside),
            turns: Default::default(),
        }
    }

    fn inside(&self) -> MutexGuard<'_, Inside> {
        self.inside.lock().unwrap()
    }

    pub(super) fn add_place(&self, number: u64) -> usize {
        let places = &mut self.inside().state.places;
        places.push(Content {
            number,
            is_held: false,
        });
        places.len() - 1
    }

    /// Has this many threads begin. Each stops before its first step, and one is chosen.
    pub(super) fn begin(&self, threads: usize) {
        let inside = &mut *self.inside();
        let new = |number| Thread {
            status: Status::Ready(Needs::Nothing),
            digest: number,
            alone: 0,
        };
        inside.state.threads = (0..threads as u64).map(new).collect();
        self.choose(inside);
    }

    /// Blocks a thread at its beginning until it is chosen.
    pub(super) fn thread_begins(&self, thread: usize) {
        let mut inside = self.waited(self.inside(), thread);
        inside.state.has_stepped(thread, 0, false);
    }

    fn waited<'a>(
        &self,
        mut inside: MutexGuard<'a, Inside>,
        thread: usize,
    ) -> MutexGuard<'a, Inside> {
        while inside.end.is_none() && inside.state.running != Some(thread) {
            inside = self.turns[thread].wait(inside).unwrap();
        }
        if inside.end.is_some() {
            drop(inside);
            resume_unwind(Box::new(RunEnded));
        }
        inside
    }

    /// Makes a step of a thread once it is chosen, or at once for none.
    pub(super) fn step(
        &self,
        thread: Option<usize>,
        name: &'static str,
        needs: Needs,
        act: impl FnOnce(&mut [Content], u64) -> u64,
    ) -> u64 {
        let mut inside = self.inside();
        let Some(thread) = thread else {
            return act(&mut inside.state.places, 0);
        };
        if needs != Needs::NoTurn {
            inside.state.threads[thread].status = Status::Ready(needs);
            self.choose(&mut inside);
            inside = self.waited(inside, thread);
        }
        inside.state.steps.push((thread, name));
        let before = inside.state.places.clone();
        let digest = inside.state.threads[thread].digest;
        let seen = act(&mut inside.state.places, digest);
        let is_change = inside.state.places != before;
        inside.state.has_stepped(thread, seen, is_change);
        seen
    }

    /// Has a thread sleep at a place until it is woken, and until what it then needs is there.
    pub(super) fn sleep(&self, thread: Option<usize>, place: usize, needs: Needs) {
        let thread = thread.expect("nobody is there who could wake this");
        let mut inside = self.inside();
        inside.state.threads[thread].status = Status::Asleep(place, needs);
        self.choose(&mut inside);
        let state = &mut self.waited(inside, thread).state;
        let mut seen = 0;
        if let Needs::Lock(lock) = needs {
            state.places[lock].is_held = true;
            seen = state.places[lock].number;
        }
        state.steps.push((thread, "wakes"));
        state.has_stepped(thread, seen, true);
        state.threads[thread].alone = 0;
    }

    /// Wakes the threads that sleep at a place, or one of them.
    pub(super) fn wake(&self, thread: Option<usize>, name: &'static str, place: usize, all: bool) {
        self.step(thread, name, Needs::Nothing, |_, _| 0);
        let inside = &mut *self.inside();
        let mut sleepers = inside.state.sleepers(Some(place));
        if !all && !sleepers.is_empty() {
            sleepers = vec![sleepers[inside.path.choose(sleepers.len())]];
        }
        sleepers
            .iter()
            .for_each(|sleeper| inside.state.wake(*sleeper));
    }

    /// Begins or ends a call of a thread. What it has seen since `digest`, if it ends, is nothing but its result.
    pub(super) fn call(&self, thread: usize, result: Option<(u64, u64)>) -> u64 {
        let own = &mut self.inside().state.threads[thread];
        own.alone = 0;
        if let Some((digest, result)) = result {
            own.digest = digest_of((digest, result));
        }
        own.digest
    }

    /// Ends a thread, which may have panicked.
    pub(super) fn thread_ended(&self, thread: usize, panicked: Option<Box<dyn Any + Send>>) {
        let inside = &mut *self.inside();
        inside.state.threads[thread].status = Status::Ended;
        match panicked {
            Some(with) if !with.is::<RunEnded>() => self.end(inside, |steps| {
                End::Panics(format!("{}, after {steps}", message(&*with)))
            }),
            _ => self.choose(inside),
        }
    }

    fn end(&self, inside: &mut Inside, end: impl FnOnce(String) -> End) {
        if inside.end.is_none() {
            inside.end = Some(end(inside.state.told()));
        }
        self.turns.iter().for_each(Condvar::notify_one);
    }

    /// Chooses the thread that goes on, or ends the run.
    fn choose(&self, inside: &mut Inside) {
        if inside.end.is_some() {
            return;
        }
        if let Some(end) = self.end_here(inside) {
            return self.end(inside, end);
        }
        let next = self.chosen(inside);
        if inside.state.running != Some(next) {
            inside.state.running = Some(next);
            self.turns[next].notify_one();
        }
    }

    /// Whether the run ends in this state, and how.
    fn end_here(&self, inside: &mut Inside) -> Option<fn(String) -> End> {
        let state = &inside.state;
        let has_ended = |thread: &Thread| thread.status == Status::Ended;
        if state.able().is_empty() {
            return Some(if state.threads.iter().all(has_ended) {
                |_| End::Done
            } else {
                End::Asleep
            });
        }
        if state
            .threads
            .iter()
            .any(|thread| thread.alone > self.search.most_alone)
        {
            return Some(End::Spins);
        }
        let digest = state.digest(self.search.preemptions.is_some());
        inside.path.knows(digest).then_some(|_| End::Known)
    }

    /// The thread that goes on. Before that, threads that sleep may be woken by nothing.
    fn chosen(&self, inside: &mut Inside) -> usize {
        let state = &mut inside.state;
        loop {
            let able = state.able();
            let can_stay = state.running == Some(able[0]);
            let is_bound = self
                .search
                .preemptions
                .is_some_and(|most| can_stay && state.preemptions >= most);
            let able = if is_bound { &able[..1] } else { &able[..] };
            let surprised = if state.surprises < self.search.surprises {
                state.sleepers(None)
            } else {
                Vec::new()
            };
            let chosen = inside.path.choose(able.len() + surprised.len());
            if chosen < able.len() {
                state.preemptions += u32::from(can_stay && chosen > 0);
                return able[chosen];
            }
            state.wake(surprised[chosen - able.len()]);
            state.surprises += 1;
        }
    }

    /// How the run ended, once all threads have.
    pub(super) fn ended(&self) -> (End, Path) {
        let mut inside = self.inside();
        let path = mem::take(&mut inside.path);
        (
            inside
                .end
                .take()
                .expect("the last thread has ended the run"),
            path,
        )
    }
}

/// What a thread panicked with.
fn message(with: &(dyn Any + Send)) -> String {
    let text = with.downcast_ref::<&str>().map(|text| text.to_string());
    text.or_else(|| with.downcast_ref::<String>().cloned())
        .unwrap_or_default()
}
