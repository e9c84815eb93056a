//! How often a failing run fails again, and whether it does where nothing runs beside it.

use super::process::{By, FailureMark, Ran, Says, first_words};
use super::search::Task;
use super::session::{Session, on_threads};
use crate::channels::lock::lock;
use crate::channels::standard_error::say;
use crate::schedule::explore::{Order, OrderKind};
use std::fmt;
use std::sync::PoisonError;
use std::sync::atomic::{AtomicUsize, Ordering};
use std::time::{Duration, Instant};
use std::{fs, io};

/// How often the journal and the schedule are tried, and how often where these first tries agree.
const TRIES: usize = 10;
const FIRST_TRIES: usize = 5;

/// How long each of these runs takes at most.
pub(super) const TIME_OF_TRY: Duration = Duration::from_secs(10);

/// How often a run was tried, and how often it failed in the same way.
#[derive(Clone, Copy, Debug, Default, PartialEq, Eq)]
pub(super) struct Tries {
    pub(super) failed: usize,
    pub(super) of: usize,
}

impl Tries {
    pub(super) fn add(&mut self, has_failed: bool) {
        self.failed += usize::from(has_failed);
        self.of += 1;
    }

    /// Whether all were the same.
    fn agree(self) -> bool {
        self.failed == 0 || self.failed == self.of
    }

    /// Whether fewer than half failed.
    pub(super) fn are_seldom(self) -> bool {
        2 * self.failed < self.of || self.of == 0
    }

    /// Whether a greater part failed than of the others.
    pub(super) fn are_more_than(self, other: Tries) -> bool {
        self.failed * other.of.max(1) > other.failed * self.of.max(1)
    }
}

impl fmt::Display for Tries {
    fn fmt(&self, f: &mut fmt::Formatter<'_>) -> fmt::Result {
        write!(f, "{} of {}", self.failed, self.of)
    }
}

/// What one try was.
#[derive(Clone, Copy, PartialEq, Eq)]
pub(super) enum OneTry {
    FailsAgain,
    Passes,
    FailsOtherwise,
}

impl Session {
    /// Tries five times whether a run fails in the same way, and ten times where these don't agree,
    /// as long as there is time.
    pub(super) fn tries(&self, by: &By<'_>, failure: &FailureMark, until: Instant) -> Tries {
        if let Some(tries) = self.tries_beside(by, failure) {
            return tries;
        }
        let mut tries = Tries::default();
        while tries.of < FIRST_TRIES || tries.of < TRIES && !tries.agree() {
            let is_late = tries.of > 0 && Instant::now() >= until;
            let Some(one) = self.one_try(by, failure, 0).filter(|_| !is_late) else {
                break;
            };
            tries.add(one == OneTry::FailsAgain);
        }
        tries
    }

    /// Adds tries, up to ten, as long as there is time.
    pub(super) fn all_tries(
        &self,
        by: &By<'_>,
        failure: &FailureMark,
        mut tries: Tries,
        until: Instant,
    ) -> Tries {
        while tries.of < TRIES && Instant::now() < until {
            let Some(one) = self.one_try(by, failure, 0) else {
                break;
            };
            tries.add(one == OneTry::FailsAgain);
        }
        tries
    }

    /// Makes the first tries beside each other. They count where all are the same, since what
    /// differs may do so because another one runs.
    fn tries_beside(&self, by: &By<'_>, failure: &FailureMark) -> Option<Tries> {
        if self.is_one_at_a_time() {
            return None;
        }
        let (next, all) = (AtomicUsize::new(0), std::sync::Mutex::new(Vec::new()));
        on_threads(self.jobs().min(FIRST_TRIES), &|job| {
            while next.fetch_add(1, Ordering::Relaxed) < FIRST_TRIES {
                if let Some(one) = self.one_try(by, failure, job) {
                    lock(&all).push(one);
                }
            }
        });
        let all = all.into_inner().unwrap_or_else(PoisonError::into_inner);
        let is_whole = all.len() == FIRST_TRIES;
        let same = |which| is_whole && all.iter().all(|one| *one == which);
        let failed = if same(OneTry::FailsAgain) {
            FIRST_TRIES
        } else {
            0
        };
        (failed > 0 || same(OneTry::Passes)).then_some(Tries {
            failed,
            of: FIRST_TRIES,
        })
    }

    /// Makes one try. Returns `None` if the time of the session is over.
    pub(super) fn one_try(&self, by: &By<'_>, failure: &FailureMark, job: usize) -> Option<OneTry> {
        match self.program.try_run(by, job, TIME_OF_TRY) {
            Ok(ran) if ran.failure.as_ref() == Some(failure) => Some(OneTry::FailsAgain),
            Ok(ran) if ran.failure.is_none() => Some(OneTry::Passes),
            Err(error) if error.kind() == io::ErrorKind::TimedOut => None,
            _ => Some(OneTry::FailsOtherwise),
        }
    }

    /// Runs an order again that has failed beside others, while nothing else runs. Returns the run
    /// that counts: one that fails, or if it passes each time, one that passes. Then the runs
    /// clash, and from here on one runs at a time. Returns `None` if the session is over.
    pub(super) fn run_alone(&self, task: &Task, ran: Ran, job: usize) -> Option<Ran> {
        let _alone = self.room.write().unwrap_or_else(PoisonError::into_inner);
        if self.is_over.load(Ordering::Relaxed) {
            return None;
        }
        let most = self.program.time_of_run();
        let run = |by: &By<'_>| {
            let ran = self.program.run(by, Says::All, job, most).ok();
            ran.filter(|ran| !ran.is_cut)
        };
        let again = run(&By::Order(&task.order))?;
        if again.failure.is_some() || self.fails_by_its_files(task, &ran, &run) {
            return Some(if again.failure.is_some() { again } else { ran });
        }
        let told = first_words(&ran);
        if lock(&self.counts).add_clash(&told) {
            say(&format!(
                "{}: a run failed beside others, and passes alone: {told}; from here on one runs at a time, as by YOVANELUM_EXPLORE_JOBS=1",
                self.name
            ));
        }
        Some(again)
    }

    /// Whether the choices of a run, or its journal, make it fail in the same way. On a runtime of
    /// several workers they may where the order's name doesn't.
    fn fails_by_its_files(
        &self,
        task: &Task,
        ran: &Ran,
        run: &impl Fn(&By<'_>) -> Option<Ran>,
    ) -> bool {
        let fails = |by: &By<'_>| run(by).is_some_and(|again| again.failure == ran.failure);
        let path = self.program.folder.join("alone");
        let order = Order {
            kind: OrderKind::File(path.clone()),
            has_timers: task.order.has_timers,
        };
        let text = ran.schedule.as_ref().map(|schedule| schedule.text());
        let is_written = text.is_some_and(|text| fs::write(&path, text).is_ok());
        let journal = super::reporting::journal_in(&ran.target);
        is_written && fails(&By::Order(&order))
            || journal.is_some_and(|journal| fails(&By::Journal(&journal)))
    }
}

#[cfg(test)]
mod tests {
    use super::*;

    #[test]
    fn of_five_and_of_ten_the_greater_part_is_more() {
        let tries = |failed, of| Tries { failed, of };
        assert!(tries(5, 5).are_more_than(tries(9, 10)));
        assert!(!tries(5, 5).are_more_than(tries(10, 10)));
        assert!(tries(1, 10).are_more_than(tries(0, 5)));
        assert!(tries(1, 10).are_more_than(Tries::default()));
        assert!(!Tries::default().are_more_than(tries(0, 5)));
    }

    #[test]
    fn fewer_than_half_are_seldom() {
        let seldom = |failed, of| Tries { failed, of }.are_seldom();
        assert!(seldom(4, 10) && seldom(0, 5) && seldom(0, 0));
        assert!(!seldom(5, 10) && !seldom(5, 5));
    }
}
