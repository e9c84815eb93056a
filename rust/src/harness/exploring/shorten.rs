//! A failing order, brought to fewer switches by a search near it.

use super::passed::PassedRun;
use super::process::{By, FailureMark, Ran, Says, TestProgram};
use crate::schedule::explore::{Order, OrderKind, Schedule, Step, Turn};
use std::fs;
use std::time::Instant;
use yovanelum_record::listed::{IntoList, PushAll};

/// How many runs the search has.
const RUNS: usize = 100;

/// A run that has failed, with its order and its schedule.
pub(super) struct Failing {
    pub(super) order: Order,
    pub(super) schedule: Schedule,
    pub(super) ran: Ran,
}

/// Looks for orders with fewer switches that fail in the same way.
pub(super) struct Shortening<'a> {
    program: &'a TestProgram,
    processor: usize,
    failure: FailureMark,
    runs: usize,
    until: Instant,
}

impl<'a> Shortening<'a> {
    /// A search that goes on until then.
    pub(super) fn new(
        program: &'a TestProgram,
        processor: usize,
        failure: FailureMark,
        until: Instant,
    ) -> Shortening<'a> {
        Shortening {
            program,
            processor,
            failure,
            runs: 0,
            until,
        }
    }

    /// Returns the one with the fewest switches that is found. Its order is one of steps where
    /// those alone bring the failure back. `passed` is a run near it that has passed.
    pub(super) fn shorten(mut self, first: Failing, passed: Option<&PassedRun>) -> Failing {
        let has_timers = first.order.has_timers;
        let mut best = first.schedule.clone();
        let same = passed.map_or(0, |passed| same_steps(&best.steps, &passed.steps));
        self.end_earlier(&mut best, same, has_timers);
        self.leave_out(&mut best, has_timers);
        while best.switches() > 1 {
            let candidates = nearer(&best.steps);
            let found = candidates
                .into_iter()
                .find_map(|steps| self.tried(steps, has_timers, best.switches()));
            match found {
                Some(found) => best = found,
                None => break,
            }
        }
        self.named(&best, has_timers, first)
    }

    /// Looks for the shortest begin of the order that fails, behind which nobody is held. What
    /// differs from a run that passes is behind these first steps, and tried first.
    fn end_earlier(&mut self, best: &mut Schedule, same: usize, has_timers: bool) {
        for more in [1, 2, 4, 8] {
            let end = same + more;
            if end < best.steps.len() && best.switches() > 1 {
                let steps = best.steps[..end].to_vec();
                if let Some(found) = self.tried(steps, has_timers, best.switches()) {
                    *best = found;
                    break;
                }
            }
        }
        let ends = switches(&best.steps);
        let (mut passes, mut fails) = (0, ends.len());
        let all = best.steps.clone();
        while passes < fails && best.switches() > 1 {
            let middle = passes.midpoint(fails);
            match self.tried(all[..ends[middle]].to_vec(), has_timers, best.switches()) {
                Some(found) => (*best, fails) = (found, middle),
                None => passes = middle + 1,
            }
        }
    }

    /// Leaves switches out: halves of them, then quarters, and so on.
    fn leave_out(&mut self, best: &mut Schedule, has_timers: bool) {
        let mut size = best.switches() / 2;
        while size > 1 && !self.is_over() {
            let all = switches(&best.steps);
            let found = all.chunks(size).find_map(|chunk| {
                let steps = without_switches(&best.steps, chunk)?;
                self.tried(steps, has_timers, best.switches())
            });
            match found {
                Some(found) => *best = found,
                None => size /= 2,
            }
            size = size.min(best.switches() / 2);
        }
    }

    /// Runs the best order once more, to have its report: by its steps alone where these bring the
    /// failure back, or else by its file. The first one is the best where neither does.
    fn named(&mut self, best: &Schedule, has_timers: bool, first: Failing) -> Failing {
        let kind = OrderKind::Steps(best.other_steps());
        let by_steps = Order { kind, has_timers };
        if by_steps == first.order {
            return first;
        }
        if let Some(found) = self.run(&by_steps, Says::All) {
            return found;
        }
        if best.switches() == first.schedule.switches() {
            return first;
        }
        let by_file = self.order_of(best.steps.clone(), has_timers);
        let found = by_file.and_then(|order| self.run(&order, Says::All));
        found.unwrap_or(first)
    }

    fn is_over(&self) -> bool {
        self.runs >= RUNS || Instant::now() >= self.until
    }

    /// Tries the order of these steps. Returns it if it fails in the same way, with fewer switches.
    fn tried(&mut self, steps: Vec<Step>, has_timers: bool, switches: usize) -> Option<Schedule> {
        if self.is_over() {
            return None;
        }
        self.runs += 1;
        let order = self.order_of(steps, has_timers)?;
        let schedule = self.run(&order, Says::Failure)?.schedule;
        (schedule.switches() < switches).then_some(schedule)
    }

    /// Returns the order of these steps, as a file.
    fn order_of(&self, steps: Vec<Step>, has_timers: bool) -> Option<Order> {
        let path = self.program.folder.join("nearer");
        let mut wanted = Schedule::new("s".to_string());
        wanted.steps = steps;
        fs::write(&path, wanted.text()).ok()?;
        let kind = OrderKind::File(path);
        Some(Order { kind, has_timers })
    }

    fn run(&self, order: &Order, says: Says) -> Option<Failing> {
        let (by, most) = (By::Order(order), self.program.time_of_run());
        let mut ran = self.program.run(&by, says, self.processor, most).ok()?;
        let schedule = ran.schedule.take();
        let is_same = !ran.is_cut && ran.failure.as_ref() == Some(&self.failure);
        if says == Says::Failure || !is_same || schedule.is_none() {
            let _ = fs::remove_dir_all(&ran.target);
        }
        Some(Failing {
            order: order.clone(),
            schedule: schedule.filter(|_| is_same)?,
            ran,
        })
    }
}

/// Returns how many steps are the same at the begin of both.
fn same_steps(steps: &[Step], others: &[Step]) -> usize {
    let both = steps.iter().zip(others);
    both.take_while(|(a, b)| a.who == b.who).count()
}

/// Returns the numbers of the steps that are switches.
fn switches(steps: &[Step]) -> Vec<usize> {
    let numbered = steps.iter().enumerate();
    let switches = numbered.filter(|(_, step)| step.turn == Turn::Switch);
    switches.map(|(at, _)| at).listed()
}

/// Returns orders near this one that may have fewer switches: those that end behind an earlier
/// switch, and those without one of them, in which the one that is held goes on.
fn nearer(steps: &[Step]) -> Vec<Vec<Step>> {
    let switches = switches(steps);
    let ends = switches[1..].iter().map(|end| steps[..*end].to_vec());
    let mut nearer = ends.listed();
    nearer.push_all(switches.iter().filter_map(|at| without_switch(steps, *at)));
    nearer
}

/// Returns the steps in another order, without these switches, the first of which is first. The
/// last one goes first, which moves none of the others.
fn without_switches(steps: &[Step], switches: &[usize]) -> Option<Vec<Step>> {
    let mut left = steps.to_vec();
    let mut is_other = false;
    for at in switches.iter().rev() {
        if let Some(without) = without_switch(&left, *at) {
            left = without;
            is_other = true;
        }
    }
    is_other.then_some(left)
}

/// Returns the steps in another order, where what the one does next who is held at this step comes
/// before the others.
fn without_switch(steps: &[Step], at: usize) -> Option<Vec<Step>> {
    let (before, after) = steps.split_at(at);
    let held = before.iter().rev().find(|step| !step.is_time())?;
    let begin = after.iter().position(|step| step.who == held.who)?;
    let block = after[begin..].iter();
    let count = block.take_while(|step| step.who == held.who).count();
    let (skipped, rest) = after.split_at(begin);
    let parts = [before, &rest[..count], skipped, &rest[count..]];
    Some(parts.concat())
}

#[cfg(test)]
mod tests {
    use super::*;

    fn steps(who: &str) -> Vec<Step> {
        let mut last = ' ';
        who.chars()
            .map(|name| {
                let turn = if last == name {
                    Turn::Same
                } else {
                    Turn::Switch
                };
                last = name;
                Step::poll_of(&name.to_string(), turn)
            })
            .collect()
    }

    fn text(steps: &[Step]) -> String {
        steps.iter().map(|step| step.who.to_string()).collect()
    }

    #[test]
    fn the_one_who_is_held_goes_on_before_the_others() {
        assert_eq!(
            text(&without_switch(&steps("aabbaab"), 2).unwrap()),
            "aaaabbb"
        );
        assert!(without_switch(&steps("aabb"), 2).is_none());
    }

    #[test]
    fn several_switches_are_left_out_at_once() {
        let all = steps("aabbaabb");
        assert_eq!(switches(&all), [0, 2, 4, 6]);
        let without = without_switches(&all, &[2, 4]).unwrap();
        assert_eq!(text(&without), "aaaabbbb");
        assert!(without_switches(&steps("ab"), &[1]).is_none());
    }

    #[test]
    fn nearer_orders_end_earlier_or_leave_a_switch_out() {
        let nearer: Vec<_> = nearer(&steps("abab"))
            .iter()
            .map(|steps| text(steps))
            .collect();
        assert_eq!(nearer, ["a", "ab", "aba", "aabb", "abba"]);
    }
}
