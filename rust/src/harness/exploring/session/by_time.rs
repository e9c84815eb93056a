//! Tests that wait for timers of the machine's clock, which goes on while tasks are held.

use super::{FoundRun, Session, TELLING_RUNS};
use crate::channels::lock::lock;
use crate::harness::exploring::failing_order::LEAST_LOST;
use crate::harness::exploring::process::{By, Ran};
use crate::harness::exploring::search::Task;
use crate::schedule::explore::{Order, RunEnd, Schedule, Step, is_time_offered};
use std::sync::atomic::Ordering;
use std::time::Duration;

impl Session {
    /// Looks whether the test waits for timers, where its first run couldn't show it. In such a run
    /// a paused clock doesn't stand still, so it says nothing else.
    pub(super) fn see_timers(&self, job: usize) {
        if !is_time_offered() {
            return;
        }
        let Some(order) = lock(&self.search).order_to_see_timers() else {
            return;
        };
        let ran = self.run_by(&By::Order(&order), job);
        let schedule = ran.and_then(|(ran, _)| ran.schedule);
        if schedule.is_some_and(|schedule| schedule.has_timers) {
            lock(&self.search).offer_time();
        }
    }

    /// Whether a run has failed by time, and not by its order: timers went on while its tasks were
    /// held, and at half the speed the same order doesn't come as far.
    pub(super) fn is_by_time(&self, ran: &Ran, job: usize) -> bool {
        let Some(schedule) = &ran.schedule else {
            return false;
        };
        let Some(order) = Order::read(&schedule.order) else {
            return false;
        };
        if schedule.end == RunEnd::Hung || schedule.lost < LEAST_LOST {
            return false;
        }
        let lost = Duration::from_millis(schedule.lost.into());
        let pause = lost * 2 / (schedule.steps.len() as u32).max(1);
        let fails = |by: &By<'_>| {
            let (again, _) = self.run_by(by, job)?;
            (again.failure == ran.failure).then_some(again)
        };
        match fails(&By::Slowed(&order, pause)) {
            Some(slow) => slow
                .schedule
                .is_some_and(|slow| ends_earlier(&slow, schedule)),
            None => fails(&By::Order(&order)).is_none(),
        }
    }

    /// Counts a run that has failed by time apart. Returns `false` where the first ones all have.
    pub(super) fn goes_on_after(&self, task: Task, ran: Ran) -> bool {
        lock(&self.search).said_nothing(&task);
        let mut counts = lock(&self.counts);
        counts.by_time += 1;
        let runs = counts.made();
        let goes_on = counts.runs > 0 || counts.by_time < TELLING_RUNS;
        drop(counts);
        lock(&self.failed_by_time).get_or_insert_with(|| FoundRun {
            task,
            ran,
            runs,
            took: self.budget.elapsed(),
        });
        self.is_over.fetch_or(!goes_on, Ordering::Relaxed);
        goes_on
    }
}

/// Whether a run that was slower has ended after far fewer steps than another one, or without the
/// timer that a choice let end there.
fn ends_earlier(slow: &Schedule, other: &Schedule) -> bool {
    let has_time = |schedule: &Schedule| schedule.steps.iter().any(Step::is_time);
    let (few, many) = (slow.steps.len(), other.steps.len());
    few * 5 < many * 4 || has_time(other) && !has_time(slow)
}

#[cfg(test)]
mod tests {
    use super::*;
    use crate::schedule::explore::{Turn, What};

    /// A schedule of this many polls, behind which a timer is let end or not.
    fn schedule(polls: usize, has_time: bool) -> Schedule {
        let step = |what| Step {
            what,
            ..Step::poll_of("a", Turn::Free)
        };
        let mut schedule = Schedule::new(String::new());
        schedule.steps = (0..polls).map(|_| step(What::Poll)).collect();
        let ready = "`a`".to_string();
        let time = has_time.then(|| step(What::Time { ready }));
        schedule.steps.extend(time);
        schedule
    }

    #[test]
    fn an_order_fails_after_the_same_steps_and_time_after_fewer() {
        assert!(!ends_earlier(&schedule(100, false), &schedule(100, false)));
        assert!(!ends_earlier(&schedule(90, false), &schedule(100, false)));
        assert!(ends_earlier(&schedule(50, false), &schedule(100, false)));
    }

    #[test]
    fn a_timer_that_a_choice_let_end_ends_by_choice_again() {
        assert!(!ends_earlier(&schedule(100, true), &schedule(100, true)));
        assert!(ends_earlier(&schedule(100, false), &schedule(100, true)));
    }
}
