//! Which order a run is made by, one after the other: a search of those with few switches, and in
//! turn with it seeds of the other strategies.

use super::settings::From;
use crate::schedule::explore::{Order, OrderKind, Schedule, Turn};
use std::collections::VecDeque;

/// How many orders are kept that are yet to be tried.
const ORDERS_KEPT: usize = 100_000;

/// How many switches the search has at most.
pub(super) const SWITCHES: usize = 3;

/// How many runs show whether a test waits for timers that was kept busy.
const LOOKS_FOR_TIMERS: u64 = 8;

/// One order in this number is guided, where the test is explored for a condition.
const BETWEEN_GUIDED: u64 = 4;

/// The steps at which an order isn't the one without a switch.
type Steps = Vec<(u32, u32)>;

/// Hands out orders.
pub(super) struct Search {
    left: u64,
    /// How many more the search may have.
    left_of_search: u64,
    waiting: [VecDeque<Steps>; SWITCHES + 1],
    /// How many orders of the search are being run, and how many passed, by their switches.
    in_flight: [usize; SWITCHES + 1],
    pub(super) passed: [u64; SWITCHES + 1],
    /// How many were found beyond those that are kept, and whether some have more switches than the
    /// search has.
    not_kept: [u64; SWITCHES + 1],
    has_more_switches: bool,
    next_seed: u64,
    /// Whether the last order was one of a seed.
    was_seed: bool,
    /// The next seed of the strategy that is guided, if there is one, and how many orders were
    /// handed out since its last one.
    next_guided: Option<u64>,
    since_guided: u64,
    /// An order to begin with.
    first: Option<Order>,
    has_begun: bool,
    pub(super) has_timers: bool,
    /// How many runs are yet to show if the test waits for timers.
    looks_for_timers: u64,
    /// How many choices a run has.
    choices: u32,
}

/// An order that was handed out.
#[derive(Clone, Debug)]
pub(super) struct Task {
    pub(super) order: Order,
    /// How many switches it has, if it is one of the search.
    pub(super) switches: Option<usize>,
}

impl Search {
    pub(super) fn new(runs: u64, from: &From, is_guided: bool) -> Search {
        let (first, next_seed, left_of_search) = match from {
            From::Start => (None, 0, runs.div_ceil(2)),
            From::Seed(seed) => (None, *seed, 0),
            From::Order(order) => (Some(order.clone()), 0, (runs.saturating_sub(1)).div_ceil(2)),
        };
        Search {
            left: runs,
            left_of_search,
            waiting: first_to_try(),
            in_flight: [0; SWITCHES + 1],
            passed: [0; SWITCHES + 1],
            not_kept: [0; SWITCHES + 1],
            has_more_switches: false,
            next_seed,
            was_seed: true,
            next_guided: is_guided.then_some(next_seed),
            // The first run says what the others need to know.
            since_guided: BETWEEN_GUIDED - 1,
            first,
            has_begun: false,
            has_timers: false,
            looks_for_timers: 0,
            choices: 20,
        }
    }

    /// Returns the order of the next run, or `None` if there is none. Whoever gets the first one
    /// runs it before others ask.
    pub(super) fn next(&mut self) -> Option<Task> {
        self.left = self.left.checked_sub(1)?;
        if let Some(order) = self.first.take() {
            return Some(Task {
                order,
                switches: None,
            });
        }
        if let Some(order) = self.guided() {
            return Some(Task {
                order,
                switches: None,
            });
        }
        if let Some(task) = self.searched() {
            return Some(task);
        }
        self.was_seed = true;
        let seed = self.next_seed;
        self.next_seed += 1;
        let steps = self.choices;
        let kind = match seed % 4 {
            0 => OrderKind::Random(seed),
            1 => OrderKind::Pct {
                depth: 2,
                seed,
                steps,
            },
            2 => OrderKind::Pct {
                depth: 3,
                seed,
                steps,
            },
            _ => OrderKind::Pos(seed),
        };
        Some(Task {
            order: self.order(kind),
            switches: None,
        })
    }

    /// Returns an order of the search, if it is its turn, and it has one.
    fn searched(&mut self) -> Option<Task> {
        if self.left_of_search == 0 || !self.was_seed {
            return None;
        }
        let switches = (0..=SWITCHES).find(|it| !self.waiting[*it].is_empty())?;
        let steps = self.waiting[switches].pop_front()?;
        self.was_seed = false;
        self.left_of_search -= 1;
        self.in_flight[switches] += 1;
        Some(Task {
            order: self.order(OrderKind::Steps(steps)),
            switches: Some(switches),
        })
    }

    /// Returns an order of the strategy that is guided, if it is its turn.
    fn guided(&mut self) -> Option<Order> {
        let seed = self.next_guided?;
        self.since_guided += 1;
        if !self.has_begun || self.since_guided < BETWEEN_GUIDED {
            return None;
        }
        self.since_guided = 0;
        self.next_guided = Some(seed + 1);
        let steps = self.choices;
        Some(self.order(OrderKind::Guided { seed, steps }))
    }

    fn order(&self, kind: OrderKind) -> Order {
        Order {
            kind,
            has_timers: self.has_timers,
        }
    }

    /// Adds what was learned by a run that has passed.
    pub(super) fn passed(&mut self, task: &Task, schedule: &Schedule) {
        self.choices = if self.has_begun {
            self.choices.max(schedule.choices() as u32)
        } else {
            (schedule.choices() as u32).max(1)
        };
        if !self.has_begun {
            let is_unsure = schedule.was_busy && !schedule.has_timers;
            self.looks_for_timers = if is_unsure { LOOKS_FOR_TIMERS } else { 0 };
        }
        self.has_begun = true;
        let finds_timers = schedule.has_timers && !self.has_timers;
        if finds_timers {
            self.offer_time();
        }
        let Some(switches) = task.switches else {
            return;
        };
        self.in_flight[switches] -= 1;
        if finds_timers || task.order.has_timers != self.has_timers {
            return;
        }
        self.passed[switches] += 1;
        if let OrderKind::Steps(steps) = &task.order.kind {
            self.branch(steps, switches, schedule);
        }
    }

    /// Returns the order of a run that shows whether the test waits for timers, if that is to be
    /// seen. It isn't one of those that are counted.
    pub(super) fn order_to_see_timers(&mut self) -> Option<Order> {
        if self.has_timers || self.left == 0 {
            return None;
        }
        self.looks_for_timers = self.looks_for_timers.checked_sub(1)?;
        let kind = match LOOKS_FOR_TIMERS - 1 - self.looks_for_timers {
            0 => OrderKind::Steps(Vec::new()),
            seed => OrderKind::Random(seed),
        };
        Some(Order {
            kind,
            has_timers: true,
        })
    }

    /// Whether no run is to show any more if the test waits for timers.
    pub(super) fn has_seen_timers(&self) -> bool {
        self.has_timers || self.looks_for_timers == 0
    }

    /// Makes time a choice from here on, so that the search begins again.
    pub(super) fn offer_time(&mut self) {
        if self.has_timers {
            return;
        }
        self.has_timers = true;
        self.passed = [0; SWITCHES + 1];
        self.not_kept = [0; SWITCHES + 1];
        self.has_more_switches = false;
        self.waiting = first_to_try();
        self.was_seed = true;
    }

    /// Notes that a run says nothing of its order.
    pub(super) fn said_nothing(&mut self, task: &Task) {
        if let Some(switches) = task.switches {
            self.in_flight[switches] -= 1;
        }
    }

    /// Adds the orders that differ from this one at one more step, behind its last one.
    fn branch(&mut self, steps: &Steps, switches: usize, schedule: &Schedule) {
        let begin = steps.last().map_or(0, |(at, _)| *at as usize + 1);
        let numbered = schedule.steps.iter().enumerate().skip(begin);
        for (at, step) in numbered.filter(|(_, step)| step.count > 1) {
            let switches = switches + usize::from(step.turn != Turn::Free);
            if switches > SWITCHES {
                self.has_more_switches = true;
                continue;
            }
            for other in 1..step.count {
                if self.waiting[switches].len() >= ORDERS_KEPT {
                    self.not_kept[switches] += 1;
                    continue;
                }
                let mut steps = steps.clone();
                steps.push((at as u32, other));
                self.waiting[switches].push_back(steps);
            }
        }
    }

    /// Returns how many switches there are at most in the orders that were all tried.
    pub(super) fn all_with_at_most(&self) -> Option<usize> {
        let done = (0..=SWITCHES).take_while(|switches| self.waiting(*switches) == 0);
        done.last().filter(|_| self.passed[0] > 0)
    }

    /// Whether all orders that there are were tried.
    pub(super) fn is_complete(&self) -> bool {
        self.all_with_at_most() == Some(SWITCHES) && !self.has_more_switches
    }

    /// Returns how many orders are yet to be tried that have this many switches, as far as they are
    /// known.
    pub(super) fn waiting(&self, switches: usize) -> usize {
        let unkept = self.not_kept[switches] as usize;
        self.waiting[switches].len() + self.in_flight[switches] + unkept
    }
}

/// What is to be tried where nothing was: the order without a switch.
fn first_to_try() -> [VecDeque<Steps>; SWITCHES + 1] {
    let mut waiting: [VecDeque<Steps>; SWITCHES + 1] = Default::default();
    waiting[0].push_back(Vec::new());
    waiting
}

#[cfg(test)]
mod tests {
    use super::*;
    use crate::schedule::explore::Step;

    /// The schedule of two callers with one call each behind the choice of the first one: who goes
    /// first is free, and that is all.
    fn schedule(turns: &[(u32, Turn)]) -> Schedule {
        let mut schedule = Schedule::new(String::new());
        schedule.steps = turns
            .iter()
            .map(|(count, turn)| Step {
                count: *count,
                ..Step::poll_of("a", *turn)
            })
            .collect();
        schedule
    }

    fn names(search: &mut Search, schedule: &Schedule) -> Vec<String> {
        let mut names = Vec::new();
        while let Some(task) = search.next() {
            names.push(task.order.to_string());
            search.passed(&task, schedule);
        }
        names
    }

    #[test]
    fn the_search_begins_with_no_switch_and_seeds_come_in_turn_with_it() {
        let schedule = schedule(&[(2, Turn::Free), (3, Turn::Same), (1, Turn::Same)]);
        let mut search = Search::new(12, &From::Start, false);
        let names = names(&mut search, &schedule);
        assert_eq!(
            names,
            [
                "s", "r0", "s0.1", "p2.1.2", "s1.1", "p3.2.2", "s1.2", "o3", "s0.1-1.1", "r4",
                "s0.1-1.2", "p2.5.2"
            ]
        );
        assert_eq!(search.passed, [2, 4, 0, 0]);
        assert_eq!(search.all_with_at_most(), Some(SWITCHES));
        assert!(search.is_complete());
    }

    #[test]
    fn orders_with_more_switches_follow_those_with_fewer() {
        let schedule = schedule(&[(2, Turn::Same), (2, Turn::Same)]);
        let mut search = Search::new(20, &From::Start, false);
        let names = names(&mut search, &schedule);
        let of_search: Vec<_> = names.iter().filter(|name| name.starts_with('s')).collect();
        assert_eq!(of_search, ["s", "s0.1", "s1.1", "s0.1-1.1"]);
        assert_eq!(search.passed, [1, 2, 1, 0]);
        assert!(search.is_complete());
    }

    #[test]
    fn a_search_with_more_switches_than_it_has_is_not_complete() {
        let schedule = schedule(&[(2, Turn::Same); SWITCHES + 1]);
        let mut search = Search::new(100, &From::Start, false);
        names(&mut search, &schedule);
        assert_eq!(search.all_with_at_most(), Some(SWITCHES));
        assert!(!search.is_complete());
    }

    #[test]
    fn a_search_that_has_not_ended_says_so() {
        let schedule = schedule(&[(2, Turn::Free), (3, Turn::Same), (2, Turn::Same)]);
        let mut search = Search::new(8, &From::Start, false);
        names(&mut search, &schedule);
        assert_eq!(search.all_with_at_most(), Some(0));
        assert!(search.waiting(1) > 0 && !search.is_complete());
    }

    #[test]
    fn an_order_that_is_still_run_was_not_tried() {
        let schedule = schedule(&[(2, Turn::Same)]);
        let mut search = Search::new(4, &From::Start, false);
        let first = search.next().unwrap();
        search.passed(&first, &schedule);
        let _seed = search.next().unwrap();
        // The one order with a switch is run.
        let second = search.next().unwrap();
        assert_eq!(search.waiting(1), 1);
        assert_eq!(search.all_with_at_most(), Some(0));
        search.passed(&second, &schedule);
        assert!(search.is_complete());
    }

    #[test]
    fn a_timer_begins_the_search_anew() {
        let mut schedule = schedule(&[(2, Turn::Same)]);
        schedule.has_timers = true;
        let mut search = Search::new(6, &From::Start, false);
        assert_eq!(
            names(&mut search, &schedule),
            ["s", "ts", "tr0", "ts0.1", "tp2.1.1", "tp3.2.1"]
        );
        assert_eq!(search.passed, [1, 1, 0, 0]);
    }

    #[test]
    fn where_a_runtime_was_kept_busy_runs_show_whether_it_has_timers() {
        let mut schedule = schedule(&[(2, Turn::Same)]);
        schedule.was_busy = true;
        let mut search = Search::new(6, &From::Start, false);
        assert_eq!(search.order_to_see_timers(), None);
        let first = search.next().unwrap();
        search.passed(&first, &schedule);
        let mut look = || search.order_to_see_timers().map(|order| order.to_string());
        let looks: Vec<_> = (0..3).filter_map(|_| look()).collect();
        assert_eq!(looks, ["ts", "tr1", "tr2"]);
        search.offer_time();
        assert_eq!(search.order_to_see_timers(), None);
        let rest = names(&mut search, &schedule);
        assert_eq!(rest, ["ts", "tr0", "ts0.1", "tp2.1.1", "tp3.2.1"]);
    }

    #[test]
    fn a_timer_is_a_choice_without_a_search_too() {
        let mut schedule = schedule(&[(2, Turn::Same)]);
        schedule.has_timers = true;
        let mut search = Search::new(3, &From::Seed(1000), false);
        assert_eq!(
            names(&mut search, &schedule),
            ["r1000", "tp2.1001.1", "tp3.1002.1"]
        );
        assert_eq!(search.all_with_at_most(), None);
    }

    #[test]
    fn one_of_four_orders_is_guided_where_a_condition_is_asked_for() {
        let schedule = schedule(&[(2, Turn::Free), (3, Turn::Same), (1, Turn::Same)]);
        let mut search = Search::new(14, &From::Start, true);
        let names = names(&mut search, &schedule);
        assert_eq!(
            names,
            [
                "s", "g0.2", "r0", "s0.1", "p2.1.2", "g1.2", "s1.1", "p3.2.2", "s1.2", "g2.2",
                "o3", "s0.1-1.1", "r4", "g3.2"
            ]
        );
        assert_eq!(search.all_with_at_most(), Some(0));
    }

    #[test]
    fn another_machine_has_the_seeds_from_a_number_on() {
        let mut search = Search::new(3, &From::Seed(1000), false);
        let names = names(&mut search, &schedule(&[(2, Turn::Same)]));
        assert_eq!(names, ["r1000", "p2.1001.1", "p3.1002.1"]);
        assert_eq!(search.all_with_at_most(), None);
    }
}
