//! A failing order as a story: the one thing that has to come before another one for the test to
//! pass, and how often it does then.

use super::exchange::ExchangedOrders;
use super::process::{By, FailureMark};
use super::race_calls;
use super::session::Session;
use super::tries::{OneTry, Tries};
use crate::schedule::explore::{Order, OrderKind, Schedule, Step, What};
use std::fs;
use std::path::Path;
use std::time::Instant;
use yovanelum_record::visible;

/// How often both orders are tried.
const TRIES: usize = 5;

/// What has to come before what, and how often the test passes where it does, and fails where not.
pub(super) struct Story {
    earlier: String,
    later: String,
    passes: Tries,
    fails: Tries,
}

impl Story {
    /// Says it in a line.
    pub(super) fn in_words(&self, is_met: bool) -> String {
        let (earlier, later) = (&self.earlier, &self.later);
        let (passes, fails) = if is_met {
            ("isn't met", "it is")
        } else {
            ("passes", "fails")
        };
        let tried = if self.passes == self.fails {
            format!("{} each", self.passes)
        } else {
            format!("{} and {}", self.passes, self.fails)
        };
        format!("{passes} if {earlier} before {later}; {fails} otherwise ({tried})")
    }
}

impl Session {
    /// Tries both orders of the race, if there is time, and returns the story of the run with this
    /// journal and these steps.
    pub(super) fn story_of(
        &self,
        orders: &ExchangedOrders,
        failure: &FailureMark,
        (journal, schedule): (Option<&Path>, &Schedule),
        until: Instant,
    ) -> Option<Story> {
        let passes = self.tried(orders, &orders.passes, failure, OneTry::Passes, until)?;
        let fails = self.tried(orders, &orders.fails, failure, OneTry::FailsAgain, until)?;
        // It tells nothing where the order alone doesn't decide.
        if passes.are_seldom() || fails.are_seldom() {
            return None;
        }
        let (of, race) = (&orders.race.failing, &orders.race);
        let call = journal.and_then(|journal| race_calls::number(race, journal, schedule));
        Some(Story {
            earlier: step_in_words(of, race.then),
            later: call.map_or_else(
                || step_in_words(of, race.first),
                |call| format!("call {call}"),
            ),
            passes,
            fails,
        })
    }

    /// Makes a run by these steps a few times. Returns how often it was what it is to be.
    fn tried(
        &self,
        orders: &ExchangedOrders,
        steps: &[Step],
        failure: &FailureMark,
        wanted: OneTry,
        until: Instant,
    ) -> Option<Tries> {
        let path = self.program.folder.join("story");
        let mut schedule = Schedule::new("s".to_string());
        schedule.steps = steps.to_vec();
        fs::write(&path, schedule.text()).ok()?;
        let order = Order {
            kind: OrderKind::File(path),
            has_timers: orders.has_timers,
        };
        let mut tries = Tries::default();
        for _ in 0..TRIES {
            if Instant::now() >= until {
                return None;
            }
            tries.add(self.one_try(&By::Order(&order), failure, 0)? == wanted);
        }
        Some(tries)
    }
}

/// Says what the step with this number is.
fn step_in_words(schedule: &Schedule, at: usize) -> String {
    let step = &schedule.steps[at];
    let who = &step.who;
    let place = step.at.as_ref();
    let place = place.map_or(String::new(), |(file, line)| format!(" ({file}:{line})"));
    match &step.what {
        What::Time { .. } => "time passes".to_string(),
        What::Call { .. } | What::Point { .. } => {
            format!(
                "`{who}` makes {}{place}",
                super::race::called(step, schedule)
            )
        }
        What::Poll => {
            let is_same = |other: &&Step| other.who == *who && other.what == What::Poll;
            let all = schedule.steps.iter().filter(is_same).count();
            let nth = schedule.steps[..=at].iter().filter(is_same).count();
            match all {
                1 => format!("`{who}` is polled"),
                _ => format!(
                    "`{who}` is polled for the {} time",
                    visible::nth(nth as u64)
                ),
            }
        }
    }
}

#[cfg(test)]
mod tests {
    use super::*;
    use crate::schedule::explore::Turn;

    #[test]
    fn a_story_says_what_has_to_come_before_what() {
        let five = Tries { failed: 5, of: 5 };
        let mut story = Story {
            earlier: "`audit` is polled".to_string(),
            later: "call 3".to_string(),
            passes: five,
            fails: five,
        };
        assert_eq!(
            story.in_words(false),
            "passes if `audit` is polled before call 3; fails otherwise (5 of 5 each)"
        );
        story.fails.failed = 4;
        assert_eq!(
            story.in_words(true),
            "isn't met if `audit` is polled before call 3; it is otherwise (5 of 5 and 4 of 5)"
        );
    }

    #[test]
    fn one_of_several_polls_has_its_number() {
        let mut schedule = Schedule::new(String::new());
        schedule.steps = ["ann", "bob", "ann"]
            .iter()
            .map(|who| Step::poll_of(who, Turn::Free))
            .collect();
        assert_eq!(step_in_words(&schedule, 1), "`bob` is polled");
        let second = "`ann` is polled for the 2nd time";
        assert_eq!(step_in_words(&schedule, 2), second);
    }
}
