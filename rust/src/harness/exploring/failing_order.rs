//! The order that failed, or that met the condition: what was found, in words and as JSON.

use super::counts::{AskedCondition, BY_CLOCK, Counts, all, with_switches};
use super::process::FailureMark;
use super::race::{self, Race};
use super::search::{Search, Task};
use super::shorten::Failing;
use super::story::Story;
use super::tries::Tries;
use crate::harness::automatic::is_under_command;
use crate::harness::replay_line::quoted;
use crate::schedule::explore::{Order, OrderKind, POINTS, Schedule, Step, has_points};
use std::fmt::Write;
use std::path::{Path, PathBuf};
use std::time::Duration;
use yovanelum_record::listed::IntoList;
use yovanelum_record::question::Meets;
use yovanelum_record::sidecar::push_string;
use yovanelum_record::visible;

/// How many milliseconds are lost at least where a run may have failed by time.
pub(super) const LEAST_LOST: u32 = 50;

/// From how many lost milliseconds on a report tells of them, where no choice let time pass. A
/// machine that isn't busy seldom loses so many, and short timers may have ended in them.
const LEAST_TOLD: u32 = 10;

/// How many characters the name of an order has that is told.
const LONGEST_NAME: usize = 100;

/// A failing order, and what brings it back.
pub(super) struct FailingOrder {
    /// The order that was found first, and how many switches it has, if the search found it.
    first: Order,
    by_search: Option<usize>,
    /// The one that is reported.
    order: Order,
    switches: usize,
    pub(super) failure: FailureMark,
    /// The call that met the condition first, if one did.
    met: Option<u64>,
    /// How often the journal brought it back, if there is one, and the choices.
    pub(super) by_journal: Option<Tries>,
    pub(super) by_schedule: Tries,
    /// By the order's name.
    pub(super) by_order: Tries,
    pub(super) journal: Option<PathBuf>,
    pub(super) schedule: Option<PathBuf>,
    /// The file of the order, where its name alone doesn't do.
    pub(super) kept_order: Option<PathBuf>,
    pub(super) race: Race,
    pub(super) story: Option<Story>,
    /// The number of the run that failed first, and when it had.
    pub(super) run: (u64, Duration),
}

impl FailingOrder {
    pub(super) fn new(failing: &Failing, first: Task, failure: FailureMark) -> FailingOrder {
        FailingOrder {
            first: first.order,
            by_search: first.switches,
            switches: failing.schedule.switches(),
            met: match failing.ran.answer {
                Some(Meets::Met(call)) => Some(call),
                _ => None,
            },
            ..FailingOrder::without_schedule(&failing.order, failure)
        }
    }

    /// A run that was ended from outside, of which no schedule is known.
    pub(super) fn without_schedule(order: &Order, failure: FailureMark) -> FailingOrder {
        FailingOrder {
            first: order.clone(),
            by_search: None,
            order: order.clone(),
            switches: 0,
            failure,
            met: None,
            by_journal: None,
            by_schedule: Tries::default(),
            by_order: Tries::default(),
            journal: None,
            schedule: None,
            kept_order: None,
            race: Race::Unknown,
            story: None,
            run: Default::default(),
        }
    }

    /// Returns the order of a schedule's file.
    pub(super) fn following(&self, path: &Path) -> Order {
        Order {
            kind: OrderKind::File(path.to_path_buf()),
            has_timers: self.order.has_timers,
        }
    }

    /// Whether nothing brings it back in half of its tries.
    pub(super) fn is_by_chance(&self) -> bool {
        self.best_tries().are_seldom()
    }

    fn best_tries(&self) -> Tries {
        let mut best = self.by_order;
        let by_journal = self.by_journal.unwrap_or(best);
        for tries in &[self.by_schedule, by_journal] {
            if tries.are_more_than(best) {
                best = *tries;
            }
        }
        best
    }

    /// Says what was found.
    pub(super) fn in_words(
        &self,
        name: &str,
        asked: Option<&AskedCondition>,
        counts: &Counts,
        search: &Search,
        failing: &Failing,
    ) -> String {
        let asked = asked.filter(|_| self.failure.is_met());
        let mut text = format!("explored {name}: ");
        if self.is_by_chance() {
            let verb = if asked.is_some() { "is met" } else { "fails" };
            let _ = write!(
                text,
                "{verb} by chance as much as by order: {}; ",
                self.best_tries()
            );
        }
        let verb = match asked {
            Some(asked) => format!("met `{}`", asked.text),
            None => "failed".to_string(),
        };
        self.push_which(&mut text, search);
        let (run, took) = (self.run.0, self.run.1.as_secs_f64());
        let _ = writeln!(text, " {verb}, in run {run} ({took:.1} s)");
        if !self.is_by_chance() {
            let is_met = self.failure.is_met();
            text.push_str(&self.race.in_words(is_met));
            if let Some(story) = &self.story {
                let _ = writeln!(text, "  the story: {}", story.in_words(is_met));
            }
            text.push_str(&race::in_words(&failing.schedule));
        }
        self.push_tries(&mut text);
        text.push_str(&lost_in_words(&failing.schedule));
        if failing.schedule.by_clock {
            let _ = writeln!(text, "  {BY_CLOCK}");
        }
        if let Some(clash) = counts.clash_in_words() {
            let _ = writeln!(text, "  {clash}");
        }
        text.push_str(&failing.ran.said);
        let is_brought_back = self.kept_order.is_some() || self.by_order.failed > 0;
        if is_brought_back && !self.is_by_chance() {
            let _ = write!(text, "again:  {}", self.again(name, &failing.ran.said));
        }
        text
    }

    /// Whether the order is to be kept in a file, by which it comes back: its name is too long, or
    /// it comes back less often by that, or by the clock too.
    pub(super) fn is_kept(&self, failing: &Failing) -> bool {
        let is_long = self.order_again().to_string().len() > LONGEST_NAME;
        let is_better = self.by_schedule.are_more_than(self.by_order);
        let has_time = !failing.schedule.clock.is_empty();
        self.by_schedule.failed > 0 && (is_long || is_better || has_time)
    }

    /// Returns the name of the order by which it is made again.
    fn name_again(&self) -> String {
        match &self.kept_order {
            Some(path) => self.following(path).to_string(),
            None => self.order_again().to_string(),
        }
    }

    /// Says which order was found, and which passed before.
    fn push_which(&self, text: &mut String, search: &Search) {
        match (search.passed[0], self.by_search) {
            (0, _) | (_, Some(0)) => (),
            (passed, _) if search.all_with_at_most().is_some() => {
                let _ = write!(text, "{}; ", all(passed, "without a switch"));
            }
            (passed, _) => {
                let orders = visible::counted(passed, "order");
                let _ = write!(text, "{orders} without a switch passed; ");
            }
        }
        let _ = match self.by_search {
            Some(0) if self.switches == 0 => write!(text, "an order without a switch"),
            Some(0) => write!(text, "an order of the search"),
            Some(switches) => {
                let passed = search.passed[switches];
                let number = passed + 1;
                let known = (passed as usize + search.waiting(switches)).max(number as usize);
                write!(
                    text,
                    "the {} of {known} {}",
                    visible::nth(number),
                    with_switches(switches)
                )
            }
            None => match self.first.kind {
                OrderKind::Guided { .. } | OrderKind::Random(_) => {
                    write!(text, "a {} order", self.first.strategy())
                }
                OrderKind::Steps(_) | OrderKind::File(_) => {
                    write!(text, "the order {}", shown_name(&self.first))
                }
                _ => write!(text, "an order by {}", self.first.strategy()),
            },
        };
    }

    /// Says what brings it back, and how often.
    fn push_tries(&self, text: &mut String) {
        let (schedule, order) = (self.by_schedule, self.by_order);
        let name = shown_name(self.order_again());
        let _ = match self.by_journal {
            Some(journal) => writeln!(
                text,
                "  the journal brings it back {journal}, the schedule's file {schedule}, the order {name} {order}"
            ),
            None => writeln!(
                text,
                "  the schedule's file brings it back {schedule}, the order {name} {order}"
            ),
        };
    }

    /// Returns the command that makes this order again: that of `cargo yovanelum`, or the one that
    /// replays its journal, with other variables.
    fn again(&self, name: &str, said: &str) -> String {
        let mut variables = format!("YOVANELUM_EXPLORE_FROM={}", quoted(&self.name_again()));
        if has_points() {
            let _ = write!(variables, " {POINTS}=all");
        }
        if is_under_command() {
            let name = quoted(name);
            return format!("{variables} cargo yovanelum explore {name} --runs 1");
        }
        let variables = format!("YOVANELUM_EXPLORE=1 {variables}");
        let replay = said
            .lines()
            .find_map(|line| line.strip_prefix("replay: YOVANELUM_REPLAY="));
        let command = replay.and_then(|replay| match replay.strip_prefix('\'') {
            Some(quoted) => quoted.split_once("' "),
            None => replay.split_once(' '),
        });
        match command {
            Some((_, command)) => format!("{variables} {command}"),
            None => format!("{variables} cargo test {name}"),
        }
    }

    /// Returns the order that is made again by its name, where a schedule's file has none.
    pub(super) fn order_again(&self) -> &Order {
        match &self.order.kind {
            OrderKind::File(_) => &self.first,
            _ => &self.order,
        }
    }

    pub(super) fn push_json(&self, json: &mut String) {
        json.push_str("{\"order\": ");
        push_string(json, &self.name_again());
        if let Some(call) = self.met {
            let _ = write!(json, ", \"call\": {call}");
        }
        if !self.failure.is_met() {
            json.push_str(", \"failure\": ");
            push_string(json, &self.failure.0);
        }
        let _ = write!(json, ", \"switches\": {}", self.switches);
        if let Some(race) = self.race.told(self.failure.is_met()) {
            json.push_str(", \"race\": ");
            push_string(json, &race.text);
        }
        if let Some(story) = &self.story {
            json.push_str(", \"story\": ");
            push_string(json, &story.in_words(self.failure.is_met()));
        }
        for (key, path) in &[("journal", &self.journal), ("schedule", &self.schedule)] {
            let _ = write!(json, ", \"{key}\": ");
            match path {
                Some(path) => push_string(json, &path.to_string_lossy()),
                None => json.push_str("null"),
            }
        }
        let ways = [
            ("Journal", self.by_journal.unwrap_or_default()),
            ("Schedule", self.by_schedule),
            ("Order", self.by_order),
        ];
        for (way, tries) in &ways {
            let _ = write!(json, ", \"by{way}\": {}", tries.failed);
        }
        let of: Vec<_> = ways.iter().map(|(_, tries)| tries.of.to_string()).listed();
        let _ = write!(json, ", \"tries\": [{}]}}", of.join(", "));
    }
}

/// Returns the name of an order, of a long one its begin.
fn shown_name(order: &Order) -> String {
    let name = order.to_string();
    match name.char_indices().nth(LONGEST_NAME) {
        Some((end, _)) => format!("{}..", &name[..end]),
        None => name,
    }
}

/// Says for how long timers of the machine's clock went on in a failing run, if it was for so long
/// that one may have ended. Where a choice let one end, the report has that already.
fn lost_in_words(schedule: &Schedule) -> String {
    let lost = schedule.lost;
    let has_time = schedule.steps.iter().any(Step::is_time);
    let least = if has_time { LEAST_LOST } else { LEAST_TOLD };
    if lost < least {
        return String::new();
    }
    format!("  timers of the machine's clock went on for {lost} ms while tasks were held\n")
}

#[cfg(test)]
mod tests {
    use super::*;
    use crate::schedule::explore::{Turn, What};

    /// What is said of a run that has lost so many milliseconds, with a poll and with these steps.
    fn said(lost: u32, others: &[What]) -> String {
        let step = |what: &What| Step {
            what: what.clone(),
            ..Step::poll_of("a", Turn::Free)
        };
        let mut schedule = Schedule::new(String::new());
        schedule.lost = lost;
        schedule.steps = [What::Poll].iter().chain(others).map(step).collect();
        lost_in_words(&schedule)
    }

    #[test]
    fn that_the_clock_let_a_short_timer_end_is_told_where_no_choice_did() {
        let line = "  timers of the machine's clock went on for 30 ms while tasks were held\n";
        assert_eq!(said(30, &[]), line);
        assert_eq!(said(9, &[]), "");
        let ready = "`a`".to_string();
        let time = [What::Time { ready }];
        assert_eq!(said(30, &time), "");
        assert_eq!(said(50, &time), line.replace("30", "50"));
    }

    #[test]
    fn of_a_long_name_the_begin_is_told() {
        let named = |text: &str| shown_name(&Order::read(text).unwrap());
        assert_eq!(named("ts12.1-15.2"), "ts12.1-15.2");
        let long = format!("s1.1{}", "-2.1".repeat(1000));
        assert_eq!(named(&long), format!("{}..", &long[..LONGEST_NAME]));
    }

    #[test]
    fn numbers_have_their_endings() {
        let all = [1, 2, 3, 4, 11, 12, 13, 21, 102, 111].map(visible::nth);
        assert_eq!(
            all.join(" "),
            "1st 2nd 3rd 4th 11th 12th 13th 21st 102nd 111th"
        );
    }
}
