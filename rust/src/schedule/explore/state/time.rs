//! How time passes in a run: where it is chosen, and where everybody waits.

use super::ExplorerState;
use crate::channels::actors::is_over_facade;
use crate::schedule::explore::chooser::Candidate;
use crate::schedule::explore::threads::{SOON, Sleeper};
use std::thread;
use std::time::{Duration, Instant};
use yovanelum_record::listed::{IntoList, PushAll};

/// How long a thread runs, in time of a processor, before the others no longer wait for it.
const PATIENCE_RUNNING: Duration = Duration::from_millis(12);

/// How much time choices let pass at most in a run. A limit may be one of the timers that they let
/// end, and a loop may set one again and again.
const TIME_OF_CHOICES: Duration = Duration::from_millis(150);

impl ExplorerState {
    pub(super) fn is_time_near(&self, rest: &[Sleeper]) -> bool {
        let is_near = |sleeper: &Sleeper| !self.vain.contains(sleeper) && sleeper.is_soon();
        let is_sleeper_near = || self.clock.chosen() < TIME_OF_CHOICES && rest.iter().any(is_near);
        let is_timer_near = || {
            let time = self.clock.offered();
            time.is_some_and(|time| self.clock.chosen() + time <= TIME_OF_CHOICES)
        };
        self.is_time_offered && (is_timer_near() || is_sleeper_near())
    }

    /// Lets the next timer end of the run's clock. Without one, waits until one of those who sleep
    /// does something else. A wait that doesn't end is no longer offered.
    pub(super) fn let_time_pass(&mut self, rest: &[Sleeper]) {
        if let Some(time) = self.clock.offered() {
            // No timer ends before its time has passed on the machine's clock, too.
            thread::sleep(time);
            self.clock.pass(time);
            return self.end_timers();
        }
        let began = Instant::now();
        self.wait_for_sleepers(rest, began);
        self.clock.pass(began.elapsed().min(SOON));
    }

    fn wait_for_sleepers(&mut self, rest: &[Sleeper], began: Instant) {
        while began.elapsed() < SOON + SOON / 5 {
            thread::sleep(Duration::from_micros(50));
            match self.look() {
                Some(now) if now == rest => (),
                _ => return,
            }
        }
        let timed = rest.iter().filter(|sleeper| sleeper.is_timed());
        self.vain.extend(timed);
    }

    /// Lets the clock go on if nobody can be let go, and all wait or one runs on. Those timers end
    /// whose time has come.
    pub(in crate::schedule::explore) fn keep_time(&mut self) {
        let moves = self.moves;
        match self.rest() {
            Some(rest) if self.candidates(&rest).is_empty() => {
                if !self.follows_clock(&[]) {
                    self.clock.everybody_waits(moves, Instant::now());
                }
            }
            Some(_) => self.clock.somebody_goes_on(),
            None => match self.runs_on() {
                // A schedule says when timers end.
                Some(_) if self.chooser.time().is_some() => self.clock.somebody_goes_on(),
                Some(ran) => self.clock.one_runs_on(moves, ran),
                None => self.clock.somebody_goes_on(),
            },
        }
        self.end_timers();
    }

    /// Lets the clock go on to the time that a schedule has for its next step, where whoever makes
    /// that isn't there yet. Returns whether a timer has ended by it, which may wake that one.
    pub(in crate::schedule::explore) fn follows_clock(&mut self, candidates: &[Candidate]) -> bool {
        let Some((who, time)) = self.chooser.time() else {
            return false;
        };
        let is_there = candidates.iter().any(|one| one.who == *who);
        let next = self.clock.next().map(|next| self.clock.now() + next);
        let Some(due) = next.filter(|due| !is_there && *due <= time) else {
            return false;
        };
        self.clock.go_to(due);
        self.end_timers();
        true
    }

    /// Has those woken who wait for timers that have ended.
    fn end_timers(&mut self) {
        let ended = self.clock.ended();
        if !ended.is_empty() {
            self.moved();
            self.wakers.push_all(ended);
        }
    }

    /// Returns how long a thread that doesn't stand has run since something moved, if it has for
    /// long.
    pub(in crate::schedule::explore) fn runs_on(&mut self) -> Option<Duration> {
        let blocked = self.stands.iter();
        let blocked = blocked.filter(|stand| stand.is_blocking() && !stand.is_chosen);
        let blocked: Vec<_> = blocked.map(|stand| stand.thread).listed();
        let is_left_out = |thread| blocked.contains(&thread);
        let ran = self.threads.longest_run(self.moves, is_left_out);
        Some(ran).filter(|ran| *ran > PATIENCE_RUNNING)
    }

    /// Returns for how many milliseconds timers of the machine's clock have gone on while tasks
    /// were held or ran, if there may be any. On a busy machine they may have ended before a thread
    /// was seen to wait for them.
    pub(in crate::schedule::explore) fn lost(&self) -> u32 {
        let may_be_unseen = (self.schedule.was_busy || self.is_let_idle) && !is_over_facade();
        if !self.has_sleepers && !may_be_unseen {
            return 0;
        }
        let lost = self.began.elapsed().saturating_sub(self.clock.now());
        u32::try_from(lost.as_millis()).unwrap_or(u32::MAX)
    }
}

#[cfg(test)]
mod tests {
    use crate::schedule::explore::chooser::Chooser;
    use crate::schedule::explore::explorer::Offered;
    use crate::schedule::explore::order::Order;
    use crate::schedule::explore::state::ExplorerState;
    use std::time::Duration;

    /// What a run by this order has lost in which no thread was seen to wait for a timer.
    fn lost_unseen(order: &str) -> u32 {
        let order = Order::read(order).unwrap();
        let chooser = Chooser::new(&order).unwrap();
        let offered = Offered {
            time: true,
            points: false,
        };
        let mut state = ExplorerState::new(&order, chooser, offered);
        state.began -= Duration::from_millis(70);
        state.lost()
    }

    #[test]
    fn timers_that_ended_before_anybody_was_seen_to_wait_for_them_went_on() {
        // The order says that its test waits for timers, as a run before it has shown.
        assert!(lost_unseen("ts6.1") >= 70);
        assert_eq!(lost_unseen("s6.1"), 0);
    }
}
