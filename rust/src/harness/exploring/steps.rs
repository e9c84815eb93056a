//! Whose steps were chosen in the runs of a session, and how many there were.

use crate::schedule::explore::{Schedule, What};
use yovanelum_record::by_text::TextSet;
use yovanelum_record::listed::IntoList;
use yovanelum_record::visible;

/// How many callers are kept, and how many are named.
const CALLERS_KEPT: usize = 1000;
const CALLERS_NAMED: usize = 6;

/// The steps of all runs.
#[derive(Default)]
pub(super) struct SeenSteps {
    /// Who has made any.
    pub(super) callers: TextSet,
    /// How many the shortest and the longest run had.
    shortest: Option<usize>,
    longest: usize,
    /// How many of them had others to choose, at most.
    pub(super) choices: u32,
    polls: bool,
    calls: bool,
}

impl SeenSteps {
    pub(super) fn add(&mut self, schedule: &Schedule) {
        let count = schedule.steps.len();
        self.shortest = Some(self.shortest.map_or(count, |least| least.min(count)));
        self.longest = self.longest.max(count);
        self.choices = self.choices.max(schedule.choices() as u32);
        for step in schedule.steps.iter().filter(|step| !step.is_time()) {
            self.polls |= step.what == What::Poll;
            self.calls |= step.what != What::Poll;
            if self.callers.len() < CALLERS_KEPT {
                self.callers.insert(&step.who);
            }
        }
    }

    /// Says how many steps a run had, and whose they were.
    pub(super) fn in_words(&self, steps: u64, runs: u64) -> String {
        let least = self.shortest.unwrap_or(0);
        let count = if least == self.longest {
            visible::counted(least as u64, "step")
        } else {
            let mean = steps as f64 / runs.max(1) as f64;
            format!("{least} to {} steps ({mean:.1} on average)", self.longest)
        };
        let names: Vec<_> = self.callers.iter().map(|who| format!("`{who}`")).listed();
        let what = match (self.polls, self.calls) {
            (true, true) => "polls and calls",
            (true, false) => "polls",
            (false, _) => "calls",
        };
        if names.is_empty() {
            return format!("steps: {count} a run");
        }
        format!(
            "steps: {count} a run: {what} of {}",
            visible::first(&names, CALLERS_NAMED, ", ")
        )
    }
}

#[cfg(test)]
mod tests {
    use super::*;
    use crate::schedule::explore::{Step, Turn};

    fn run(who: &str) -> Schedule {
        let mut schedule = Schedule::new(String::new());
        let step = |name: char| Step::poll_of(&name.to_string(), Turn::Free);
        schedule.steps = who.chars().map(step).collect();
        schedule
    }

    #[test]
    fn it_says_whose_steps_there_were_and_how_many() {
        let mut seen = SeenSteps::default();
        seen.add(&run("ab"));
        assert_eq!(
            seen.in_words(2, 1),
            "steps: 2 steps a run: polls of `a`, `b`"
        );
        seen.add(&run("abcb"));
        assert_eq!(
            seen.in_words(6, 2),
            "steps: 2 to 4 steps (3.0 on average) a run: polls of `a`, `b`, `c`"
        );
        assert_eq!(seen.choices, 4);
    }
}
