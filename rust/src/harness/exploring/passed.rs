//! The runs that have passed, of which the nearest to a failing one is looked for.

use crate::schedule::explore::{Order, Schedule, Step};

/// How many steps are kept of all runs.
const STEPS_KEPT: usize = 100_000;

/// The runs that have passed, as far as they are kept.
#[derive(Default)]
pub(super) struct PassedRuns {
    runs: Vec<PassedRun>,
    steps: usize,
}

/// A run that has passed.
#[derive(Clone)]
pub(super) struct PassedRun {
    pub(super) steps: Vec<Step>,
    pub(super) has_timers: bool,
}

impl PassedRuns {
    pub(super) fn add(&mut self, order: Order, schedule: &Schedule) {
        let count = schedule.steps.len();
        if self.steps + count <= STEPS_KEPT && !schedule.was_too_long {
            self.steps += count;
            self.runs.push(PassedRun {
                steps: schedule.steps.clone(),
                has_timers: order.has_timers,
            });
        }
    }

    /// Returns the one that goes on longest as these steps do, among those for which time is a
    /// choice as it is for them.
    pub(super) fn nearest(&self, steps: &[Step], has_timers: bool) -> Option<&PassedRun> {
        let mut nearest: Option<(usize, &PassedRun)> = None;
        for run in &self.runs {
            let both = run.steps.iter().zip(steps);
            let same = both.take_while(|(a, b)| a.who == b.who).count();
            // Of several, the first one has the fewest switches.
            let is_nearer = nearest.is_none_or(|(most, _)| same > most);
            if is_nearer && run.has_timers == has_timers {
                nearest = Some((same, run));
            }
        }
        Some(nearest?.1)
    }
}
