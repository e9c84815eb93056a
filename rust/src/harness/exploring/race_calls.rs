//! Which calls of a run the two steps of its race are. The race was seen in another run of the same
//! test, which fails in the same way.

use super::exchange::Exchange;
use super::race::Race;
use crate::harness::{ending, reader};
use crate::schedule::explore::{Schedule, Step, What};
use std::fs;
use std::path::Path;
use yovanelum_record::journal::{Run, RunEntry};
use yovanelum_record::sidecar::Sidecar;

/// The names and the page of a run.
pub(super) struct WithRace {
    pub(super) names: String,
    pub(super) page: Option<Vec<u8>>,
}

impl Race {
    /// Returns the names of a run with this race, and its page, or nothing if there is none or they
    /// can't be read. `schedule` has the steps of the run.
    pub(super) fn beside(
        &self,
        (path, journal): (&Path, &str),
        names: &str,
        (schedule, is_met): (&Schedule, bool),
    ) -> Option<WithRace> {
        let Race::Exchange(found) = self else {
            return None;
        };
        let mut names = Sidecar::read(names).ok()?;
        let run = Run::with_callers(journal.as_bytes(), &names).ok()?;
        let mut race = self.told(is_met)?;
        let calls = StepCalls::of(schedule, &run);
        race.first.stamp = calls.stamp(found, found.first);
        race.then.stamp = calls.stamp(found, found.then);
        names.order.race = Some(race);
        let report = reader::report(&run, journal, &names, ending::options(path, false)).ok()?;
        Some(WithRace {
            page: report.page.ok(),
            names: report.names,
        })
    }
}

/// Returns the number of the call which the first step of a race makes, or goes on to, in the run
/// with this journal and these steps.
pub(super) fn number(found: &Exchange, journal: &Path, schedule: &Schedule) -> Option<u64> {
    let names = fs::read_to_string(journal.with_extension("names")).ok()?;
    let names = Sidecar::read(&names).ok()?;
    let run = Run::with_callers(&fs::read(journal).ok()?, &names).ok()?;
    let stamp = StepCalls::of(schedule, &run).stamp(found, found.first)?;
    Some(run.place_of_stamp(stamp))
}

/// The steps of a run, each with the stamp of its call, if that was recorded.
struct StepCalls<'a> {
    steps: Vec<(&'a Step, Option<u64>)>,
}

impl<'a> StepCalls<'a> {
    /// Finds the entry of each step. Who is let go makes its call before another one goes on, so
    /// both come in one order. A call that waits leaves no entry.
    fn of(schedule: &'a Schedule, run: &Run) -> StepCalls<'a> {
        let mut entries = run.entries().map(|(_, entry)| entry).peekable();
        let steps = schedule.steps.iter().map(|step| {
            let entry = entries.next_if(|entry| is_call(step, entry));
            (step, entry.map(|entry| entry.stamp))
        });
        StepCalls {
            steps: steps.collect(),
        }
    }

    /// Returns the stamp of the call that a step of the race makes, or goes on to.
    fn stamp(&self, found: &Exchange, at: usize) -> Option<u64> {
        let race = &found.failing.steps;
        let own = race[at..].iter().filter(|step| step.who == race[at].who);
        let call = own.take(2).find(|step| step.is_call())?;
        let before = race.iter().take_while(|step| !std::ptr::eq(*step, call));
        let nth = before.filter(|step| is_same(step, call)).count();
        let mut same = self.steps.iter().filter(|(step, _)| is_same(step, call));
        same.nth(nth)?.1
    }
}

/// Whether two steps are the same call by the same caller at the same place.
fn is_same(one: &Step, other: &Step) -> bool {
    let of = |step: &Step| match &step.what {
        What::Call { word, channel, .. } => Some((word.clone(), *channel)),
        _ => None,
    };
    one.who == other.who && one.at == other.at && of(one) == of(other)
}

/// Whether an entry is that of the call which a step makes.
fn is_call(step: &Step, entry: &RunEntry) -> bool {
    match &step.what {
        What::Call {
            word,
            channel,
            handle,
        } => entry.word.text() == word && (entry.channel, entry.handle) == (*channel, *handle),
        _ => false,
    }
}

#[cfg(test)]
mod tests {
    use super::*;
    use crate::schedule::explore::Turn;

    fn call(who: &str, word: &str, handle: u32, line: u32) -> Step {
        Step {
            what: What::Call {
                word: word.to_string(),
                channel: 0,
                handle,
            },
            at: Some(("a.rs".to_string(), line)),
            ..Step::poll_of(who, Turn::Free)
        }
    }

    fn schedule(steps: Vec<Step>) -> Schedule {
        Schedule {
            steps,
            ..Schedule::new(String::new())
        }
    }

    /// A reader waits for a value, which an admin sends, and both do that once more.
    fn run_of_four() -> (Schedule, Run) {
        let (recv, send) = (call("reader", "recv", 1, 4), call("admin", "send", 0, 7));
        let poll = |who| Step::poll_of(who, Turn::Free);
        let steps = vec![
            recv.clone(),
            send.clone(),
            poll("reader"),
            recv.clone(),
            recv.clone(),
            send,
            poll("reader"),
            recv,
        ];
        let text = "ttd-journal 2\nbroadcast 4\nsteps\n3 0 0 send 0 7 = sent 1\n4 1 0 recv 1 = value 7\n\
            8 0 0 send 0 8 = sent 1\n9 1 0 recv 1 = value 8\nend\n";
        (schedule(steps), Run::read(text.as_bytes()).unwrap())
    }

    #[test]
    fn a_call_that_waits_has_no_entry() {
        let (schedule, run) = run_of_four();
        let calls = StepCalls::of(&schedule, &run);
        let stamps: Vec<_> = calls.steps.iter().map(|(_, stamp)| *stamp).collect();
        assert_eq!(
            stamps,
            [None, Some(3), None, Some(4), None, Some(8), None, Some(9)]
        );
    }

    #[test]
    fn steps_of_a_race_in_another_run_are_found_by_who_what_and_where() {
        let (schedule, run) = run_of_four();
        let calls = StepCalls::of(&schedule, &run);
        // There the reader is polled before it calls.
        let failing = self::schedule(vec![
            call("admin", "send", 0, 7),
            Step::poll_of("reader", Turn::Free),
            call("admin", "send", 0, 7),
            call("reader", "recv", 1, 4),
            call("reader", "try-recv", 1, 9),
        ]);
        let found = Exchange {
            failing,
            first: 1,
            then: 2,
        };
        // The reader goes on to its first receive there, which waits here.
        assert_eq!(calls.stamp(&found, 1), None);
        assert_eq!(calls.stamp(&found, 0), Some(3));
        assert_eq!(calls.stamp(&found, 2), Some(8));
        // No such call is made here.
        assert_eq!(calls.stamp(&found, 4), None);
    }
}
