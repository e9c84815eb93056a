//! What threads share: each place has a number, and each step of a thread is on one place.

use super::run::Run;
use super::state::{Content, Needs, digest_of};
use std::cell::RefCell;
use std::sync::Arc;
use std::thread::panicking;

thread_local! {
    /// The run that this thread belongs to, with the thread's number. What begins and ends a play has none.
    static HERE: RefCell<Option<(Arc<Run>, Option<usize>)>> = const { RefCell::new(None) };
}

/// Has this thread belong to a run from now on, or to none.
pub(super) fn belong_to(run: Option<(Arc<Run>, Option<usize>)>) {
    HERE.set(run);
}

fn here() -> (Arc<Run>, Option<usize>) {
    let here = HERE.with_borrow(Clone::clone);
    here.expect("words and locks are made and used within a play")
}

/// Makes a call of this thread: a part whose steps are counted, and of which it remembers nothing but the result.
pub fn call(act: impl FnOnce() -> u64) {
    let (run, Some(thread)) = here() else {
        act();
        return;
    };
    let digest = run.call(thread, None);
    let result = act();
    run.call(thread, Some((digest, result)));
}

/// A place that threads share: a word, a slot, a lock or a queue of threads that sleep.
#[derive(Debug)]
pub struct Place(usize);

impl Place {
    pub fn new(number: u64) -> Place {
        Place(here().0.add_place(number))
    }

    fn step(
        &self,
        name: &'static str,
        needs: Needs,
        act: impl FnOnce(&mut Content, u64) -> u64,
    ) -> u64 {
        let (run, thread) = here();
        run.step(thread, name, needs, |places, digest| {
            act(&mut places[self.0], digest)
        })
    }

    /// Makes a step on the number here, and returns what the step has seen.
    pub fn change(&self, name: &'static str, act: impl FnOnce(&mut u64) -> u64) -> u64 {
        self.step(name, Needs::Nothing, |content, _| act(&mut content.number))
    }

    /// Exchanges what is here for something of the thread's own. The number here is a digest of it.
    ///
    /// It is no step of its own: as the kit's table has proved, no other thread uses the place before this one's next step.
    pub fn exchange(&self) {
        self.step("exchange", Needs::NoTurn, |content, own| {
            let seen = content.number;
            content.number = digest_of((seen, own));
            seen
        });
    }

    /// Acquires this lock, and blocks until it is free.
    pub fn lock(&self) {
        self.step("lock", Needs::Lock(self.0), |content, _| {
            content.is_held = true;
            content.number
        });
    }

    /// Acquires this lock if it is free, and returns whether it was.
    pub fn try_lock(&self) -> bool {
        let mut was_free = false;
        self.step("try to lock", Needs::Nothing, |content, _| {
            was_free = !content.is_held;
            content.is_held = true;
            if was_free { content.number } else { 0 }
        });
        was_free
    }

    /// Releases this lock. The number here is a digest of what the lock protects. A thread that unwinds makes no step.
    pub fn unlock(&self) {
        if !panicking() {
            self.step("unlock", Needs::Nothing, released);
        }
    }

    /// Sleeps until this place is woken, if the number here is this one.
    pub fn park(&self, expected: u64) {
        let found = self.change("park", |number| *number);
        if found == expected {
            let (run, thread) = here();
            run.sleep(thread, self.0, Needs::Nothing);
        }
    }

    /// Releases a lock, and sleeps until this place is woken, in one step. Acquires the lock again.
    pub fn wait(&self, lock: &Place) {
        lock.step("wait", Needs::Nothing, released);
        let (run, thread) = here();
        run.sleep(thread, self.0, Needs::Lock(lock.0));
    }

    /// Wakes the threads that sleep here, or one of them.
    pub fn wake(&self, name: &'static str, all: bool) {
        let (run, thread) = here();
        run.wake(thread, name, self.0, all);
    }
}

fn released(content: &mut Content, own: u64) -> u64 {
    content.is_held = false;
    content.number = digest_of((content.number, own));
    0
}
