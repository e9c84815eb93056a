//! The timers of the package that stands for tokio, in a run that is explored: they end by the
//! clock of the run, which stands still while tasks are held.

use crate::channels::turns::{Explored, explored};
use std::fmt;
use std::task::{Context, Poll};
use std::time::{Duration, Instant};

/// What has the clock of a run that is explored.
pub(crate) trait Timers: Send + Sync {
    /// Returns the time of the clock, or `None` once timers end by the machine's clock again.
    fn now(&self) -> Option<Duration>;

    /// Returns when a deadline of the machine's clock comes by this one.
    fn due(&self, deadline: Instant) -> Duration;

    /// Sets a timer, and returns its number.
    fn set(&self, due: Duration) -> u64;

    /// Whether a timer has ended, or `None` once it ends by the machine's clock again. The task is
    /// woken at its end.
    fn poll(&self, number: u64, context: &Context<'_>) -> Option<bool>;

    /// Removes a timer.
    fn remove(&self, number: u64);
}

/// A timer that ends by the clock of a run that is explored.
///
/// No part of what this crate promises: it is for the package that stands for tokio.
#[doc(hidden)]
pub struct HeldTimer {
    run: &'static Explored,
    number: u64,
    deadline: Instant,
    due: Duration,
    clock: fn() -> Instant,
}

/// Whether the process runs a test that is explored, so that timers are held with its tasks.
///
/// No part of what this crate promises: it is for the package that stands for tokio.
#[doc(hidden)]
#[inline]
pub fn are_timers_held() -> bool {
    explored().is_some()
}

impl HeldTimer {
    /// A timer that ends so long after now, which is at this deadline. `clock` is that of the
    /// runtime. There is none in a run that isn't explored, and where a test has paused the clock.
    pub fn after(length: Duration, deadline: Instant, clock: fn() -> Instant) -> Option<HeldTimer> {
        let run = explored()?;
        let now = run.timers.now()?;
        HeldTimer::new(run, deadline, now.saturating_add(length), clock)
    }

    /// A timer that ends at a deadline.
    pub fn at(deadline: Instant, clock: fn() -> Instant) -> Option<HeldTimer> {
        let run = explored()?;
        run.timers.now()?;
        HeldTimer::new(run, deadline, run.timers.due(deadline), clock)
    }

    fn new(
        run: &'static Explored,
        deadline: Instant,
        due: Duration,
        clock: fn() -> Instant,
    ) -> Option<HeldTimer> {
        is_of_machine(clock).then(|| HeldTimer {
            run,
            number: run.timers.set(due),
            deadline,
            due,
            clock,
        })
    }

    /// Returns its deadline.
    pub fn deadline(&self) -> Instant {
        self.deadline
    }

    /// Whether it has ended.
    pub fn is_elapsed(&self) -> bool {
        match self.run.timers.now() {
            Some(now) => now >= self.due,
            None => (self.clock)() >= self.deadline,
        }
    }

    /// Returns how long ago it has ended, by the clock of the run.
    pub fn late(&self) -> Duration {
        let now = self.run.timers.now();
        now.map_or(Duration::ZERO, |now| now.saturating_sub(self.due))
    }

    /// Sets it to another deadline.
    pub fn reset(&mut self, deadline: Instant) {
        self.set(deadline, self.run.timers.due(deadline));
    }

    /// Sets it to a deadline that is so long after now.
    pub fn restart(&mut self, length: Duration, deadline: Instant) {
        let now = self.run.timers.now();
        self.set(deadline, now.unwrap_or(self.due).saturating_add(length));
    }

    /// Sets it to the deadline that is so long after the one that it has.
    pub fn put_off(&mut self, by: Duration) {
        let deadline = self.deadline.checked_add(by).unwrap_or(self.deadline);
        self.set(deadline, self.due.saturating_add(by));
    }

    fn set(&mut self, deadline: Instant, due: Duration) {
        self.run.timers.remove(self.number);
        self.number = self.run.timers.set(due);
        (self.deadline, self.due) = (deadline, due);
    }

    /// Polls it. `None` says that it isn't one of the run's clock any more: the run lets all go, or
    /// the test has paused the runtime's clock since.
    pub fn poll(&mut self, context: &Context<'_>) -> Option<Poll<()>> {
        if !is_of_machine(self.clock) {
            return None;
        }
        let has_ended = self.run.timers.poll(self.number, context)?;
        Some(if has_ended {
            Poll::Ready(())
        } else {
            Poll::Pending
        })
    }
}

impl Drop for HeldTimer {
    fn drop(&mut self) {
        self.run.timers.remove(self.number);
    }
}

impl fmt::Debug for HeldTimer {
    fn fmt(&self, f: &mut fmt::Formatter<'_>) -> fmt::Result {
        let mut shown = f.debug_struct("HeldTimer");
        shown
            .field("deadline", &self.deadline)
            .finish_non_exhaustive()
    }
}

/// Whether the clock of a runtime is that of the machine. It isn't where a test has paused or
/// advanced it.
fn is_of_machine(clock: fn() -> Instant) -> bool {
    let before = Instant::now();
    let there = clock();
    before <= there && there <= Instant::now()
}
