//! The state of a run: what is in each place, and where each thread is.

use std::hash::{DefaultHasher, Hash, Hasher};

/// What a thread needs for its next step.
#[derive(Clone, Copy, Debug, Hash, PartialEq)]
pub(super) enum Needs {
    /// Not even that it is chosen: the step is a part of the thread's step before.
    NoTurn,
    Nothing,
    /// That the lock of this place is free.
    Lock(usize),
}

#[derive(Clone, Copy, Debug, Hash, PartialEq)]
pub(super) enum Status {
    /// Stops before its next step, or makes it.
    Ready(Needs),
    /// Sleeps at a place until it is woken. It then needs this.
    Asleep(usize, Needs),
    Ended,
}

#[derive(Debug)]
pub(super) struct Thread {
    pub(super) status: Status,
    /// A digest of all that its steps have seen.
    pub(super) digest: u64,
    /// How many steps it has made since another thread changed something, since it was woken, or since its call began.
    pub(super) alone: u32,
}

/// What is in a place.
#[derive(Clone, Copy, Debug, Hash, PartialEq)]
pub(super) struct Content {
    pub(super) number: u64,
    /// Whether a thread has acquired it as a lock.
    pub(super) is_held: bool,
}

#[derive(Debug, Default)]
pub(super) struct State {
    pub(super) places: Vec<Content>,
    pub(super) threads: Vec<Thread>,
    /// The thread that runs, or ran last.
    pub(super) running: Option<usize>,
    /// How often a thread was stopped that could go on.
    pub(super) preemptions: u32,
    /// How often a thread was woken by nothing.
    pub(super) surprises: u32,
    /// The steps up to here, each with its thread.
    pub(super) steps: Vec<(usize, &'static str)>,
}

pub(super) fn digest_of(seen: impl Hash) -> u64 {
    let mut hasher = DefaultHasher::new();
    seen.hash(&mut hasher);
    hasher.finish()
}

impl State {
    fn can_go(&self, thread: usize) -> bool {
        match self.threads[thread].status {
            Status::Ready(Needs::NoTurn | Needs::Nothing) => true,
            Status::Ready(Needs::Lock(place)) => !self.places[place].is_held,
            Status::Asleep(..) | Status::Ended => false,
        }
    }

    /// The threads that can go on, beginning with the one that ran.
    pub(super) fn able(&self) -> Vec<usize> {
        let others = (0..self.threads.len()).filter(|other| Some(*other) != self.running);
        let all = self.running.into_iter().chain(others);
        all.filter(|thread| self.can_go(*thread)).collect()
    }

    /// The threads that sleep, at this place or anywhere.
    pub(super) fn sleepers(&self, at: Option<usize>) -> Vec<usize> {
        let sleeps = |thread: &Thread| match thread.status {
            Status::Asleep(place, _) => at.is_none_or(|at| at == place),
            _ => false,
        };
        let all = self.threads.iter().enumerate();
        all.filter(|(_, thread)| sleeps(thread))
            .map(|(number, _)| number)
            .collect()
    }

    pub(super) fn wake(&mut self, thread: usize) {
        if let Status::Asleep(_, needs) = self.threads[thread].status {
            self.threads[thread].status = Status::Ready(needs);
        }
    }

    /// Notes what a thread's step has seen, and whether it changed something.
    pub(super) fn has_stepped(&mut self, thread: usize, seen: u64, is_change: bool) {
        for (other, it) in self.threads.iter_mut().enumerate() {
            if is_change && other != thread {
                it.alone = 0;
            }
        }
        let own = &mut self.threads[thread];
        own.digest = digest_of((own.digest, seen));
        own.alone += 1;
    }

    /// A digest of the state. With a bound on preemptions, what can follow depends on those before too.
    pub(super) fn digest(&self, is_bounded: bool) -> u64 {
        let threads: Vec<_> = self
            .threads
            .iter()
            .map(|it| (it.status, it.digest))
            .collect();
        let bounded = is_bounded.then_some((self.running, self.preemptions));
        digest_of((&self.places, threads, bounded, self.surprises))
    }

    /// The steps as a text.
    pub(super) fn told(&self) -> String {
        let steps = self
            .steps
            .iter()
            .map(|(thread, name)| format!("{thread} {name}"));
        steps.collect::<Vec<_>>().join(", ")
    }
}
