//! tokio's interval. In a run that is explored it ticks by the clock of the run.

use crate::timers::clock;
use real_tokio::time as theirs;
use real_tokio::time::{Instant, MissedTickBehavior};
use std::fmt;
use std::future::poll_fn;
use std::task::{Context, Poll};
use std::time::Duration;
use yovanelum::HeldTimer;

/// How late a tick is that isn't missed, as of tokio.
const ON_TIME: Duration = Duration::from_millis(5);

/// tokio's own, or one of a run that is explored.
pub struct Interval {
    theirs: theirs::Interval,
    held: Option<HeldTimer>,
}

/// As tokio's own.
///
/// # Panics
///
/// Panics where tokio's own does.
#[track_caller]
pub fn interval(period: Duration) -> Interval {
    let theirs = theirs::interval(period);
    let held = HeldTimer::after(Duration::ZERO, clock(), clock);
    Interval { theirs, held }
}

/// As tokio's own.
///
/// # Panics
///
/// Panics where tokio's own does.
#[track_caller]
pub fn interval_at(start: Instant, period: Duration) -> Interval {
    let theirs = theirs::interval_at(start, period);
    let held = HeldTimer::at(start.into_std(), clock);
    Interval { theirs, held }
}

impl Interval {
    /// As tokio's own.
    pub async fn tick(&mut self) -> Instant {
        if self.held.is_some() {
            poll_fn(|context| self.poll_tick(context)).await
        } else {
            // A report names tokio's own method where a task waits in it.
            self.theirs.tick().await
        }
    }

    /// As tokio's own.
    pub fn poll_tick(&mut self, context: &mut Context<'_>) -> Poll<Instant> {
        let period = self.period();
        let behavior = self.missed_tick_behavior();
        let Some(held) = &mut self.held else {
            return self.theirs.poll_tick(context);
        };
        let tick = held.deadline();
        match held.poll(context) {
            Some(Poll::Pending) => Poll::Pending,
            Some(Poll::Ready(())) => {
                held.put_off(until_next(behavior, period, held.late()));
                Poll::Ready(tick.into())
            }
            None => {
                self.held = None;
                self.begin_at(tick.into());
                self.theirs.poll_tick(context)
            }
        }
    }

    /// As tokio's own.
    pub fn reset(&mut self) {
        let period = self.period();
        match &mut self.held {
            Some(held) => held.restart(period, clock() + period),
            None => self.theirs.reset(),
        }
    }

    /// As tokio's own.
    pub fn reset_immediately(&mut self) {
        self.reset_after(Duration::ZERO);
    }

    /// As tokio's own.
    pub fn reset_after(&mut self, after: Duration) {
        match &mut self.held {
            Some(held) => held.restart(after, clock() + after),
            None => self.begin_at(Instant::now() + after),
        }
    }

    /// As tokio's own.
    pub fn reset_at(&mut self, deadline: Instant) {
        match &mut self.held {
            Some(held) => held.reset(deadline.into_std()),
            None => self.begin_at(deadline),
        }
    }

    /// As tokio's own.
    pub fn missed_tick_behavior(&self) -> MissedTickBehavior {
        self.theirs.missed_tick_behavior()
    }

    /// As tokio's own.
    pub fn set_missed_tick_behavior(&mut self, behavior: MissedTickBehavior) {
        self.theirs.set_missed_tick_behavior(behavior);
    }

    /// As tokio's own.
    pub fn period(&self) -> Duration {
        self.theirs.period()
    }

    /// Has tokio's own begin anew. Its first versions have no method that does.
    fn begin_at(&mut self, start: Instant) {
        let behavior = self.missed_tick_behavior();
        self.theirs = theirs::interval_at(start, self.period());
        self.theirs.set_missed_tick_behavior(behavior);
    }
}

impl fmt::Debug for Interval {
    fn fmt(&self, f: &mut fmt::Formatter<'_>) -> fmt::Result {
        self.theirs.fmt(f)
    }
}

/// Returns how long after a tick the next one is that isn't missed, where this one is so late.
fn until_next(behavior: MissedTickBehavior, period: Duration, late: Duration) -> Duration {
    if late <= ON_TIME {
        return period;
    }
    match behavior {
        MissedTickBehavior::Burst => period,
        MissedTickBehavior::Delay => late + period,
        MissedTickBehavior::Skip => {
            let missed = late.as_nanos() / period.as_nanos() + 1;
            period * u32::try_from(missed).unwrap_or(u32::MAX)
        }
    }
}
