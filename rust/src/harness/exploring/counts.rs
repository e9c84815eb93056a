//! What was tried: how many runs were made and what they were, in words and as JSON.

use super::covered::CoveredPairs;
use super::failing_order::FailingOrder;
use super::process::FailureMark;
use super::search::{SWITCHES, Search, Task};
use super::steps::SeenSteps;
use crate::harness::program;
use crate::schedule::explore::Schedule;
use std::fmt::Write;
use std::hash::{DefaultHasher, Hash, Hasher};
use std::time::Duration;
use yovanelum_record::by_text::TextMap;
use yovanelum_record::listed::{IntoList, Keep};
use yovanelum_record::numbered::NumberSet;
use yovanelum_record::sidecar::push_string;
use yovanelum_record::visible;

/// What is said where the system doesn't tell who sleeps.
pub(super) const BY_CLOCK: &str =
    "threads were taken to sleep by a clock, so a seed or an order may not come back";

/// The condition that a run is looked for.
pub(super) struct AskedCondition {
    pub(super) text: String,
    /// Whether any run had something of its name.
    pub(super) is_there: bool,
    /// What is said if none had.
    pub(super) unknown: Option<String>,
}

/// How many runs were made, and what they were.
#[derive(Default)]
pub(super) struct Counts {
    pub(super) runs: u64,
    by_strategy: TextMap<u64>,
    pub(super) orders: NumberSet<u64>,
    covered: CoveredPairs,
    seen: SeenSteps,
    steps: u64,
    restless: u64,
    unnamed: u64,
    too_long: u64,
    /// How many recorded nothing, and the likely cause.
    nothing: u64,
    /// How many recorded nothing, and chose polls of named tasks.
    polls_alone: u64,
    cause: Option<String>,
    by_clock: bool,
    /// How many have failed by time, and not by their order.
    pub(super) by_time: u64,
    /// How many didn't end, and did so where each who stands goes on in turn.
    pub(super) endless: u64,
    /// How many failed beside others and passed alone, and how the first one did.
    clashes: u64,
    clash: Option<String>,
}

impl Counts {
    /// How many runs were made up to one that has failed.
    pub(super) fn made(&self) -> u64 {
        self.runs + self.by_time + self.endless
    }

    pub(super) fn add(&mut self, task: &Task, schedule: &Schedule) {
        self.runs += 1;
        *self.by_strategy.get_or_default(task.order.strategy()) += 1;
        let mut order = DefaultHasher::new();
        for step in &schedule.steps {
            (&step.who, format!("{:?}", step.what)).hash(&mut order);
        }
        self.orders.insert(order.finish());
        self.covered.add(schedule);
        self.seen.add(schedule);
        self.steps += schedule.steps.len() as u64;
        self.restless += u64::from(schedule.restless);
        self.unnamed += u64::from(schedule.unnamed);
        self.too_long += u64::from(schedule.was_too_long);
        self.by_clock |= schedule.by_clock;
        self.nothing += u64::from(schedule.nothing.is_some() && !schedule.polls_alone);
        self.polls_alone += u64::from(schedule.polls_alone);
        self.cause = self.cause.take().or_else(|| schedule.nothing.clone());
    }

    /// Adds a run that failed in these words beside others, and passed alone. Returns `true` if it
    /// is the first one.
    pub(super) fn add_clash(&mut self, told: &str) -> bool {
        self.clashes += 1;
        let is_first = self.clash.is_none();
        self.clash.get_or_insert_with(|| told.to_string());
        is_first
    }

    /// Whether a run failed that passes alone.
    pub(super) fn has_clash(&self) -> bool {
        self.clash.is_some()
    }

    /// Says that runs clash, if they do.
    pub(super) fn clash_in_words(&self) -> Option<String> {
        let told = self.clash.as_ref()?;
        let runs = visible::counted(self.clashes, "run");
        Some(format!(
            "{runs} failed beside others and passed alone, as where they share a port or a file: {told}; \
            YOVANELUM_EXPLORE_JOBS=1 runs one at a time"
        ))
    }

    /// Whether no run has recorded anything.
    pub(super) fn have_nothing(&self) -> bool {
        self.runs > 0 && self.nothing == self.runs
    }

    /// Says that nothing was recorded, where that is so of all runs.
    pub(super) fn nothing_in_words(&self, name: &str, failed: Option<&FailureMark>) -> String {
        let cause = self.cause.as_deref().unwrap_or_default();
        let said = match (failed, self.runs) {
            (Some(_), 1) => "run 1 failed, but recorded nothing".to_string(),
            (Some(_), runs) => {
                format!("run {runs} failed, but nothing was recorded in any of {runs} runs")
            }
            (None, 1) => "the run recorded nothing".to_string(),
            (None, runs) => format!("nothing was recorded in any of {runs} runs"),
        };
        format!("explored {name}: {said}, so no order was chosen: {cause}")
    }

    /// Says what was tried where all runs passed, and what wasn't.
    pub(super) fn passed_in_words(
        &self,
        name: &str,
        asked: Option<&AskedCondition>,
        search: &Search,
        took: Duration,
    ) -> String {
        if self.has_one_order() {
            return self.one_order_in_words(name);
        }
        let searched = searched_in_words(search);
        let others = self
            .by_strategy
            .iter()
            .filter(|(strategy, _)| *strategy != "search");
        let others: Vec<_> = others
            .map(|(strategy, count)| match strategy {
                "guided" | "random" => format!("{count} {strategy}"),
                strategy => format!("{count} by {strategy}"),
            })
            .listed();
        let mut parts = vec![searched, others.join(", ")];
        parts.keep(|part| !part.is_empty());
        let no_run = match asked {
            None => String::new(),
            Some(AskedCondition {
                unknown: Some(unknown),
                ..
            }) => format!("{unknown}; "),
            Some(asked) => format!("no run met `{}`: ", asked.text),
        };
        let runs = match self.runs {
            1 => "1 run".to_string(),
            runs => format!("all {runs} runs"),
        };
        let orders = visible::counted(self.orders.len() as u64, "order");
        let seconds = took.as_secs_f64();
        let mut text =
            format!("explored {name}: {no_run}{runs} passed, in {orders} ({seconds:.1} s)");
        if !parts.is_empty() {
            let _ = write!(text, ": {}", parts.join("; "));
        }
        self.push_remarks(&mut text);
        text
    }

    /// Whether nobody ever had another one beside it, so that there was one order.
    pub(super) fn has_one_order(&self) -> bool {
        self.runs > 0 && self.seen.choices == 0 && !self.have_nothing()
    }

    /// Says that nothing was explored, and why.
    fn one_order_in_words(&self, name: &str) -> String {
        let runs = visible::counted(self.runs, "run");
        let mut text = format!(
            "explored {name}: nothing was explored: there was one order alone in {runs}, since nobody ever stood beside another one"
        );
        self.push_remarks(&mut text);
        text
    }

    /// Adds what is to be known of the runs, and what wasn't chosen in them.
    fn push_remarks(&self, text: &mut String) {
        if self.runs > 0 {
            let _ = write!(text, "\n  {}", self.seen.in_words(self.steps, self.runs));
            text.push_str(&self.bounds_in_words());
            let _ = write!(text, "\n  {}", self.covered.in_words());
        }
        let _ = write!(
            text,
            "\n  {} of {} steps were chosen while a thread ran",
            self.restless, self.steps
        );
        if self.unnamed > 0 {
            let _ = write!(
                text,
                "; {} calls came from tasks or threads without a name",
                self.unnamed
            );
        }
        if self.too_long > 0 {
            let _ = write!(
                text,
                "; {} runs were too long, and went on without an order",
                self.too_long
            );
        }
        if self.by_clock {
            let _ = write!(text, "; {BY_CLOCK}");
        }
        if self.by_time > 0 {
            let runs = visible::counted(self.by_time, "run");
            let _ = write!(
                text,
                "\n  {runs} beside them failed by time: a timer ended that no choice let end, at half the speed after fewer steps"
            );
        }
        if self.endless > 0 {
            let runs = visible::counted(self.endless, "run");
            let _ = write!(
                text,
                "\n  {runs} beside them had no end, and one where all who stand go on in turn"
            );
        }
        if let Some(clash) = self.clash_in_words() {
            let _ = write!(text, "\n  {clash}");
        }
        if self.nothing > 0 {
            let cause = self.cause.as_deref().unwrap_or_default();
            let _ = write!(
                text,
                "\n  {} of {} runs recorded nothing: {cause}",
                self.nothing, self.runs
            );
        }
        if self.polls_alone > 0 {
            let cause = self.cause.as_deref().unwrap_or_default();
            let _ = write!(
                text,
                "\n  {} of {} runs recorded nothing, and chose polls of named tasks alone: {cause}",
                self.polls_alone, self.runs
            );
        }
        // Under the patch they are.
        let tasks = if program::is_patched() {
            ""
        } else {
            "tasks without a name, and "
        };
        let _ = write!(
            text,
            "\n  not chosen: {tasks}what happens between two calls or polls: atomics, locks, other channels"
        );
    }

    /// Says with which probability the random part finds a bug: that of PCT, whose runs are
    /// independent.
    fn bounds_in_words(&self) -> String {
        let (tasks, steps) = (self.seen.callers.len(), self.seen.choices);
        let runs_of = |strategy| self.by_strategy.get(strategy).copied().unwrap_or(0);
        let bounds = [("PCT 2", 2), ("PCT 3", 3)].map(|(strategy, depth)| {
            let runs = runs_of(strategy);
            (steps > 0 && runs > 0).then(|| {
                let of_one = tasks as f64 * (steps as f64).powi(depth - 1);
                let of_all = 1.0 - (1.0 - 1.0 / of_one).powf(runs as f64);
                format!(
                    "1/{of_one:.0} for a bug of depth {depth} ({} by {strategy}: {:.1} %)",
                    visible::counted(runs, "run"),
                    of_all * 100.0
                )
            })
        });
        let bounds: Vec<_> = bounds.into_iter().flatten().listed();
        if bounds.is_empty() {
            return String::new();
        }
        format!(
            "\n  random: of {} with {} a run, one run finds with at least {}",
            visible::counted(tasks as u64, "caller"),
            visible::counted(u64::from(steps), "choice"),
            bounds.join(", ")
        )
    }

    /// Returns all as one JSON object.
    pub(super) fn json(
        &self,
        name: &str,
        asked: Option<&AskedCondition>,
        search: &Search,
        took: Duration,
        found: Option<&FailingOrder>,
    ) -> String {
        let mut json = "{\"test\": ".to_string();
        push_string(&mut json, name);
        let _ = write!(
            json,
            ", \"runs\": {}, \"orders\": {}",
            self.runs,
            self.orders.len()
        );
        let _ = write!(
            json,
            ", \"seconds\": {:.3}, \"strategies\": {{",
            took.as_secs_f64()
        );
        for (index, (strategy, count)) in self.by_strategy.iter().enumerate() {
            json.push_str(if index > 0 { ", " } else { "" });
            push_string(&mut json, strategy);
            let _ = write!(json, ": {count}");
        }
        let switches = search.all_with_at_most();
        let switches = switches.map_or("null".to_string(), |switches| switches.to_string());
        let _ = write!(json, "}}, \"allWithSwitches\": {switches}");
        let by_switches: Vec<_> = (0..=SWITCHES)
            .map(|it| {
                let passed = search.passed[it];
                format!("[{passed}, {}]", passed as usize + search.waiting(it))
            })
            .listed();
        let _ = write!(
            json,
            ", \"allOrders\": {}, \"bySwitches\": [{}]",
            search.is_complete(),
            by_switches.join(", ")
        );
        let _ = write!(
            json,
            ", \"steps\": {}, \"restless\": {}, \"choices\": {}, \"callers\": {}, \"endless\": {}",
            self.steps,
            self.restless,
            self.seen.choices,
            self.seen.callers.len(),
            self.endless
        );
        let _ = write!(
            json,
            ", \"unnamedCalls\": {}, \"tooLong\": {}, \"nothingRecorded\": {}, \"failedByTime\": {}, \"clashes\": {}",
            self.unnamed, self.too_long, self.nothing, self.by_time, self.clashes
        );
        let covered = self.covered.counts();
        let _ = write!(
            json,
            ", \"pairs\": {}, \"pairsInBothOrders\": {}, \"pairsAreCut\": {}",
            covered.seen, covered.in_both_orders, self.covered.is_cut
        );
        let (met, failure) = match found {
            Some(found) if found.failure.is_met() => (Some(found), None),
            found => (None, found),
        };
        if let Some(asked) = asked {
            json.push_str(", \"for\": ");
            push_string(&mut json, &asked.text);
            let _ = write!(json, ", \"isThere\": {}, \"met\": ", asked.is_there);
            push_found(&mut json, met);
        }
        json.push_str(", \"failure\": ");
        push_found(&mut json, failure);
        json.push_str("}\n");
        json
    }
}

fn push_found(json: &mut String, found: Option<&FailingOrder>) {
    match found {
        Some(found) => found.push_json(json),
        None => json.push_str("null"),
    }
}

/// Says how many orders of the search passed, by their switches, and of how many that are known.
fn searched_in_words(search: &Search) -> String {
    let Some(most) = search.all_with_at_most() else {
        return match search.passed[0] {
            0 => String::new(),
            1 => "1 order without a switch passed, and there are more".to_string(),
            some => format!("{some} orders without a switch passed, and there are more"),
        };
    };
    let passed = search.passed[..=most].iter().sum();
    if search.is_complete() {
        return format!("{}, and there is no other", all(passed, "that there are"));
    }
    let all = match most {
        0 => all(passed, "without a switch"),
        1 => all(passed, "with at most one switch"),
        _ => all(passed, &format!("with at most {most} switches")),
    };
    let next = most + 1;
    match search.passed.get(next).copied().unwrap_or(0) {
        0 => all,
        some => format!(
            "{all}, and {some} of {} or more with {}",
            some as usize + search.waiting(next),
            if next == 1 {
                "one".to_string()
            } else {
                next.to_string()
            }
        ),
    }
}

/// Says how many switches an order has.
pub(super) fn with_switches(count: usize) -> String {
    match count {
        0 => "without a switch".to_string(),
        1 => "with one switch".to_string(),
        count => format!("with {count} switches"),
    }
}

/// Says that all orders of a kind passed, of which there are `count`.
pub(super) fn all(count: u64, which: &str) -> String {
    match count {
        1 => format!("the one order {which} passed"),
        2 => format!("both orders {which} passed"),
        count => format!("all {count} orders {which} passed"),
    }
}
