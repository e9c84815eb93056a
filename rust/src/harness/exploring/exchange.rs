//! The two steps whose exchange turns a failing run into one that passes.
//!
//! Between the order that fails and one that passes there is a way of orders, each of which moves
//! one step of the one before. The place on it where the failure begins is looked for by halves,
//! and so is the step that the one which is moved there must come before. All orders are run.

use super::passed::PassedRun;
use super::process::{By, FailureMark, Ran, Says, TestProgram};
use super::shorten::Failing;
use crate::schedule::explore::{Order, OrderKind, Schedule, Step};
use std::fs;
use std::time::Instant;
use yovanelum_record::by_text::TextMap;
use yovanelum_record::listed::IntoList;

/// How many runs the search has.
const RUNS: usize = 60;

/// How often an order is run where the failing one doesn't fail each time.
const RUNS_OF_ONE: usize = 3;

/// Two orders that differ in two steps alone, of which one fails and the other one passes.
pub(super) struct Exchange {
    /// The steps of the run that fails, and its channels.
    pub(super) failing: Schedule,
    /// The numbers of both steps in it.
    pub(super) first: usize,
    pub(super) then: usize,
}

/// Both orders of the two steps, as they were tried.
pub(super) struct ExchangedOrders {
    pub(super) race: Exchange,
    pub(super) passes: Vec<Step>,
    pub(super) fails: Vec<Step>,
    pub(super) has_timers: bool,
}

/// Looks for the two steps.
pub(super) struct ExchangeSearch<'a> {
    program: &'a TestProgram,
    failure: FailureMark,
    has_timers: bool,
    /// How often an order passes that is taken to pass.
    passes: usize,
    runs: usize,
    until: Instant,
}

/// A part of the way, whose begin passes and whose end fails.
struct Between {
    passes: usize,
    fails: usize,
}

impl<'a> ExchangeSearch<'a> {
    pub(super) fn new(
        program: &'a TestProgram,
        failure: FailureMark,
        has_timers: bool,
        fails_each_time: bool,
        until: Instant,
    ) -> ExchangeSearch<'a> {
        ExchangeSearch {
            program,
            failure,
            has_timers,
            passes: if fails_each_time { 1 } else { RUNS_OF_ONE },
            runs: 0,
            until,
        }
    }

    /// Returns the two steps, if they are found in time: what the failing run has before the run
    /// that passes has it.
    pub(super) fn find(mut self, failing: &Failing, passed: &PassedRun) -> Option<ExchangedOrders> {
        let (fails, passes) = (&failing.schedule.steps, &passed.steps);
        let both = fails.iter().zip(passes);
        let moved = self.halved(
            Between {
                passes: both.take_while(|(a, b)| a.who == b.who).count(),
                fails: fails.len(),
            },
            |count| begun_as(fails, count, passes),
        )?;
        let (before, step) = (&fails[..moved.passes], &fails[moved.passes]);
        let rest = without(passes, before);
        let Some(own) = rest.iter().position(|other| other.who == step.who) else {
            return self.compared(
                begun_as(fails, moved.passes, passes),
                begun_as(fails, moved.fails, passes),
            );
        };
        // The step comes behind this many of the rest: behind all it passes, before all it fails.
        let placed = |behind: usize| [before, &moved_to(&rest, own, behind, step)].concat();
        let between = self.halved(
            Between {
                passes: 0,
                fails: own,
            },
            |count| placed(own - count),
        )?;
        self.compared(placed(own - between.passes), placed(own - between.fails))
    }

    /// Looks for the place on a way at which the failure begins.
    fn halved(
        &mut self,
        mut between: Between,
        order: impl Fn(usize) -> Vec<Step>,
    ) -> Option<Between> {
        while between.fails - between.passes > 1 {
            let middle = between.passes.midpoint(between.fails);
            let ran = self.run(order(middle), Says::Failure)?;
            if ran.failure.is_some() {
                between.fails = middle;
            } else {
                between.passes = middle;
            }
        }
        (between.fails > between.passes).then_some(between)
    }

    /// Runs both orders, of which one is to pass and one to fail, and returns the steps that were
    /// exchanged in them.
    fn compared(&mut self, passes: Vec<Step>, fails: Vec<Step>) -> Option<ExchangedOrders> {
        let passing = self.run(passes.clone(), Says::Failure)?;
        let failing = self.run(fails.clone(), Says::All)?;
        let is_found = passing.failure.is_none() && failing.failure.as_ref() == Some(&self.failure);
        if !is_found {
            return None;
        }
        let (passing, failing) = (passing.schedule?, failing.schedule?);
        let (first, then) = exchanged(&failing.steps, &passing.steps)?;
        let race = Exchange {
            failing,
            first,
            then,
        };
        Some(ExchangedOrders {
            race,
            passes,
            fails,
            has_timers: self.has_timers,
        })
    }

    /// Makes a run by these steps, which fails if one of some does.
    fn run(&mut self, steps: Vec<Step>, says: Says) -> Option<Ran> {
        let path = self.program.folder.join("exchanged");
        let mut wanted = Schedule::new("s".to_string());
        wanted.steps = steps;
        fs::write(&path, wanted.text()).ok()?;
        let order = Order {
            kind: OrderKind::File(path),
            has_timers: self.has_timers,
        };
        let mut passes = None;
        for _ in 0..self.passes {
            if self.runs >= RUNS || Instant::now() >= self.until {
                return None;
            }
            self.runs += 1;
            let most = self.program.time_of_run();
            let ran = self.program.run(&By::Order(&order), says, 0, most).ok()?;
            let _ = fs::remove_dir_all(&ran.target);
            if ran.is_cut {
                return None;
            }
            if ran.failure.is_some() {
                return Some(ran);
            }
            passes = Some(ran);
        }
        passes
    }
}

/// Returns this many first steps of one run, and then those of another one that are yet to be made.
fn begun_as(first: &[Step], count: usize, then: &[Step]) -> Vec<Step> {
    let begin = &first[..count];
    [begin, &without(then, begin)].concat()
}

/// Returns steps without as many first ones of each caller as there are others of it.
fn without(steps: &[Step], made: &[Step]) -> Vec<Step> {
    let mut left: TextMap<usize> = TextMap::new();
    for step in made {
        *left.get_or_default(&step.who) += 1;
    }
    let is_left = |step: &&Step| match left.get_mut(&step.who) {
        Some(count) if *count > 0 => {
            *count -= 1;
            false
        }
        _ => true,
    };
    steps.iter().filter(is_left).cloned().listed()
}

/// Returns steps in which the one at `own` is this one, and comes behind `behind` of them.
fn moved_to(steps: &[Step], own: usize, behind: usize, step: &Step) -> Vec<Step> {
    let mut moved = steps.to_vec();
    moved.remove(own);
    moved.insert(behind, step.clone());
    moved
}

/// Returns the step at which a run begins to differ from another one, and the one that the other
/// one makes there.
fn exchanged(failing: &[Step], passing: &[Step]) -> Option<(usize, usize)> {
    let is_same = |(a, b): &(&Step, &Step)| a.who == b.who && a.what == b.what;
    let first = failing.iter().zip(passing).take_while(is_same).count();
    let other = &passing.get(first)?.who;
    let mut rest = failing.iter().skip(first);
    let is_two = rest.next().is_some_and(|step| step.who != *other);
    let then = rest.position(|step| step.who == *other)?;
    is_two.then_some((first, first + 1 + then))
}

#[cfg(test)]
mod tests {
    use super::*;
    use crate::schedule::explore::Turn;

    fn steps(who: &str) -> Vec<Step> {
        let step = |name: char| Step::poll_of(&name.to_string(), Turn::Free);
        who.chars().map(step).collect()
    }

    fn text(steps: &[Step]) -> String {
        steps.iter().map(|step| step.who.to_string()).collect()
    }

    #[test]
    fn an_order_begins_as_one_run_and_ends_as_another_one() {
        let between = |count| text(&begun_as(&steps("bbaac"), count, &steps("aabcb")));
        let all: Vec<_> = (0..=5).map(between).collect();
        assert_eq!(all, ["aabcb", "baacb", "bbaac", "bbaac", "bbaac", "bbaac"]);
    }

    #[test]
    fn a_step_is_moved_behind_others() {
        let (rest, step) = (steps("xyza"), &steps("a")[0]);
        let moved = |behind| text(&moved_to(&rest, 3, behind, step));
        assert_eq!([0, 1, 3].map(moved), ["axyz", "xayz", "xyza"]);
    }

    #[test]
    fn the_steps_that_are_exchanged_are_those_where_the_runs_begin_to_differ() {
        assert_eq!(exchanged(&steps("abcd"), &steps("acbd")), Some((1, 2)));
        assert_eq!(exchanged(&steps("abbcd"), &steps("acbbd")), Some((1, 3)));
        assert_eq!(exchanged(&steps("abc"), &steps("abc")), None);
        assert_eq!(exchanged(&steps("abb"), &steps("acb")), None);
    }
}
