//! The race of a failing order in words: the two steps that make the difference, and the switches.

use super::exchange::Exchange;
use crate::schedule::explore::{RunEnd, Schedule, Step, Turn, What};
use std::fmt::Write as _;
use yovanelum_record::listed::IntoList;
use yovanelum_record::operation::Operation;
use yovanelum_record::sidecar::{RaceFound, RaceStep};

/// How many switches are told, and how many calls within one.
const SWITCHES_TOLD: usize = 3;
const CALLS_TOLD: usize = 3;

/// At how many steps it is told that time passed.
const TIMES_TOLD: usize = 3;

/// What is between the parts of a race in a report.
const BREAK: &str = "\n            ";

/// What is known of how a failing order differs from one that passes.
pub(super) enum Race {
    Exchange(Exchange),
    /// This number of other orders was tried, and none passes.
    NonePasses(usize),
    Unknown,
}

impl Race {
    /// Says it in lines of a report, where a run fails, or where it meets a condition.
    pub(super) fn in_words(&self, is_met: bool) -> String {
        match self {
            Race::Exchange(found) => {
                format!("  the race: {}\n", found.in_words(is_met, BREAK).text)
            }
            Race::NonePasses(count) => format!("  none of {count} other orders passes\n"),
            Race::Unknown => String::new(),
        }
    }

    /// Says it in one line, with what it says of both steps, whose calls aren't known here.
    pub(super) fn told(&self, is_met: bool) -> Option<RaceFound> {
        match self {
            Race::Exchange(found) => Some(found.in_words(is_met, " ")),
            Race::NonePasses(_) | Race::Unknown => None,
        }
    }
}

impl Exchange {
    /// Says it with this between its parts.
    fn in_words(&self, is_met: bool, gap: &str) -> RaceFound {
        let (fails, passes) = if is_met {
            ("it is met", "isn't")
        } else {
            ("it fails", "passes")
        };
        let mut file = String::new();
        let first = step_in_words(&self.failing, self.first, &mut file);
        let between = between_in_words(self, gap, &mut file);
        let then = step_in_words(&self.failing, self.then, &mut file);
        let step = |text| RaceStep { text, stamp: None };
        RaceFound {
            text: format!(
                "{fails} where {first}{between},{gap}before {then}, and {passes} the other way round"
            ),
            first: step(first),
            then: step(then),
        }
    }
}

/// Says what is made between the two steps by others than the first one.
fn between_in_words(found: &Exchange, gap: &str, file: &mut String) -> String {
    let schedule = &found.failing;
    let first = &schedule.steps[found.first].who;
    let between = (found.first + 1..found.then).filter(|at| schedule.steps[*at].who != *first);
    let between: Vec<usize> = between.listed();
    let told = between.iter().take(CALLS_TOLD);
    let mut said: String = told
        .map(|at| format!(",{gap}and {}", step_in_words(schedule, *at, file)))
        .collect();
    push_more(&mut said, between.len());
    said
}

/// Adds how many there are beside those that are told.
fn push_more(said: &mut String, count: usize) {
    if let Some(more) = count.checked_sub(CALLS_TOLD).filter(|more| *more > 0) {
        let _ = write!(said, " and {more} more");
    }
}

/// Says what the step with this number does: a call, or the way of a task from where it waited to
/// where it stands or waits next.
fn step_in_words(schedule: &Schedule, at: usize, file: &mut String) -> String {
    let (before, rest) = schedule.steps.split_at(at);
    let step = &rest[0];
    let is_own = |other: &&Step| other.who == step.who;
    let mut said = format!("`{}`", step.who);
    match &step.what {
        What::Time { ready } => return format!("time passed while {ready} stood ready"),
        What::Call { .. } | What::Point { .. } => push(&mut said, " made ", step, schedule, file),
        What::Poll => {
            said.push_str(" went on");
            if before.iter().any(|other| is_own(&other)) {
                push_waited(&mut said, " from ", step, file);
            } else {
                said.push_str(" from its start");
            }
            match rest[1..].iter().find(is_own) {
                Some(next) if next.what == What::Poll => {
                    push_waited(&mut said, " to ", next, file);
                }
                Some(next) => push(&mut said, " to ", next, schedule, file),
                None => push_last(&mut said, &step.who, schedule, file),
            }
        }
    }
    said
}

/// Adds where a task waits at the end of the run, or that it has ended.
fn push_last(said: &mut String, who: &str, schedule: &Schedule, file: &mut String) {
    let mut waiting = schedule.waiting.iter();
    match waiting.find(|waiting| *waiting.who == *who) {
        Some(waiting) => {
            let _ = write!(said, " to {}", waiting.what);
            push_place(said, waiting.at.as_ref(), file);
        }
        None if schedule.end == RunEnd::Failed => said.push_str(" to its end"),
        None => (),
    }
}

/// Adds what the task waited for that is polled, if that is known.
fn push_waited(said: &mut String, start: &str, step: &Step, file: &mut String) {
    if let Some(waited_for) = &step.waited_for {
        let _ = write!(said, "{start}{waited_for}");
        push_place(said, step.at.as_ref(), file);
    }
}

/// Returns the lines that say what the switches of a failing order are: which caller was held,
/// before which call, and what others did meanwhile.
pub(super) fn in_words(schedule: &Schedule) -> String {
    let switches: Vec<usize> = places(schedule, |step| step.turn == Turn::Switch);
    let mut lines = String::new();
    let mut told: Vec<String> = Vec::new();
    let mut untold = 0;
    for at in switches {
        // The same calls of a loop may be switched again and again.
        match (switch(schedule, at), told.len() < SWITCHES_TOLD) {
            (words, _) if told.contains(&words) => untold += 1,
            (words, true) => told.push(words),
            (_, false) => untold += 1,
        }
    }
    for words in told {
        let _ = writeln!(lines, "  the switch: {words}");
    }
    if untold > 0 {
        let _ = writeln!(lines, "  and {untold} more");
    }
    push_times(&mut lines, schedule);
    lines
}

/// Adds at which steps time passed. Of many, the first ones are told.
fn push_times(lines: &mut String, schedule: &Schedule) {
    let times = (1..)
        .zip(&schedule.steps)
        .filter(|(_, step)| step.is_time());
    let mut count = 0;
    for (at, step) in times {
        count += 1;
        if let (true, What::Time { ready }) = (count <= TIMES_TOLD, &step.what) {
            let _ = writeln!(
                lines,
                "  time passed at step {at} while {ready} stood ready"
            );
        }
    }
    if count > TIMES_TOLD {
        let _ = writeln!(lines, "  and at {} further steps", count - TIMES_TOLD);
    }
}

fn places(schedule: &Schedule, is_meant: impl Fn(&Step) -> bool) -> Vec<usize> {
    let numbered = schedule.steps.iter().enumerate();
    let meant = numbered.filter(|(_, step)| is_meant(step));
    meant.map(|(at, _)| at).listed()
}

/// Says what the switch at this step is.
fn switch(schedule: &Schedule, at: usize) -> String {
    let (before, after) = schedule.steps.split_at(at);
    let Some(held) = before.iter().rev().find(|step| !step.is_time()) else {
        return String::new();
    };
    let mut file = String::new();
    let mut said = format!("`{}` was held", held.who);
    let is_held = |step: &&Step| step.who == held.who;
    let next = after.iter().position(|step| step.who == held.who);
    let is_call = |step: &&Step| is_call(step);
    match after.iter().filter(is_held).find(is_call) {
        Some(call) => push(&mut said, " before ", call, schedule, &mut file),
        None => said.push_str(" until the end"),
    }
    if let Some(call) = before.iter().rev().filter(is_held).find(is_call) {
        push(&mut said, ", after ", call, schedule, &mut file);
    }
    let meanwhile = &after[..next.unwrap_or(after.len())];
    said + &meanwhile_in_words(meanwhile, schedule, &mut file)
}

/// Says what others did.
fn meanwhile_in_words(steps: &[Step], schedule: &Schedule, file: &mut String) -> String {
    let calls: Vec<&Step> = steps.iter().filter(|step| is_call(step)).listed();
    let mut said = String::new();
    let mut who = None;
    for call in calls.iter().take(CALLS_TOLD) {
        let start = match who {
            None => format!(",\n              while `{}` made ", call.who),
            Some(who) if who == &call.who => ", ".to_string(),
            Some(_) => format!(", and `{}` made ", call.who),
        };
        who = Some(&call.who);
        push(&mut said, &start, call, schedule, file);
    }
    push_more(&mut said, calls.len());
    match (calls.first(), steps.first()) {
        (None, Some(step)) => format!(",\n              while `{}` went on", step.who),
        _ => said,
    }
}

/// Whether a step is a call, of a recorded channel or of tokio's own.
fn is_call(step: &Step) -> bool {
    step.is_call() || matches!(step.what, What::Point { .. })
}

/// Adds a call with its place, which has its file only if that isn't this one.
fn push(said: &mut String, start: &str, call: &Step, schedule: &Schedule, file: &mut String) {
    if is_call(call) {
        let _ = write!(said, "{start}{}", called(call, schedule));
        push_place(said, call.at.as_ref(), file);
    }
}

/// Returns the call that a step is, without its place.
pub(super) fn called(call: &Step, schedule: &Schedule) -> String {
    match &call.what {
        What::Call { word, channel, .. } => {
            let mut names = schedule.channels.iter();
            let name = names.find(|(number, _)| number == channel);
            match name {
                Some((_, name)) => format!("{name}.{}", method(word)),
                None => format!("channel {channel}.{}", method(word)),
            }
        }
        What::Point { called } => called.clone(),
        What::Poll | What::Time { .. } => String::new(),
    }
}

/// Adds a place in the source, with its file only if that isn't this one.
fn push_place(said: &mut String, at: Option<&(String, u32)>, file: &mut String) {
    if let Some((of, line)) = at {
        let _ = if of == file {
            write!(said, " (:{line})")
        } else {
            write!(said, " ({of}:{line})")
        };
        file.clone_from(of);
    }
}

/// Returns the method that makes the call for which a journal has this word.
fn method(word: &str) -> &str {
    match Operation::of_text(word) {
        Some(word) => word.method(),
        None => word,
    }
}

#[cfg(test)]
mod tests {
    use super::*;

    fn step(who: &str, word: Option<(&str, u32)>, turn: Turn) -> Step {
        Step {
            chosen: u32::from(turn == Turn::Switch),
            what: word.map_or(What::Poll, |(word, _)| What::Call {
                word: word.to_string(),
                channel: 0,
                handle: 0,
            }),
            at: word.map(|(_, line)| ("tests/shop.rs".to_string(), line)),
            ..Step::poll_of(who, turn)
        }
    }

    fn race(steps: Vec<Step>, then: usize) -> String {
        let mut failing = Schedule::new(String::new());
        failing.channels = vec![(0, "config".to_string())];
        failing.steps = steps;
        let first = 1;
        let found = Exchange {
            failing,
            first,
            then,
        };
        Race::Exchange(found).in_words(false)
    }

    #[test]
    fn a_race_of_calls_names_both_and_what_lies_between() {
        let call = |who, word, line| step(who, Some((word, line)), Turn::Free);
        let (borrow, send) = (call("reader", "borrow", 14), call("admin", "send", 21));
        let (looks, marks) = (
            call("other", "borrow", 30),
            call("reader", "mark-unchanged", 16),
        );
        assert_eq!(
            race(vec![borrow.clone(), send.clone(), marks.clone()], 2),
            "  the race: it fails where `admin` made config.send (tests/shop.rs:21),\n            \
            before `reader` made config.mark_unchanged (:16), and passes the other way round\n"
        );
        let between = race(vec![borrow, send, looks, marks], 3);
        assert!(
            between.contains(
                ",\n            and `other` made config.borrow (:30),\n            before `reader` "
            ),
            "{between}"
        );
    }

    #[test]
    fn a_race_of_polls_says_from_where_to_where_a_task_goes() {
        let waiting = |who, waited_for: &str, line| {
            let mut poll = step(who, None, Turn::Free);
            poll.waited_for = Some(waited_for.to_string());
            poll.at = Some(("tests/shop.rs".to_string(), line));
            poll
        };
        let steps = vec![
            step("ann", None, Turn::Free),
            waiting("ann", "yield_now", 12),
            step("bob", None, Turn::Free),
            waiting("ann", "Mutex::lock", 13),
        ];
        assert_eq!(
            race(steps, 2),
            "  the race: it fails where `ann` went on from yield_now (tests/shop.rs:12) to Mutex::lock (:13),\n            \
            before `bob` went on from its start, and passes the other way round\n"
        );
    }

    #[test]
    fn a_race_of_tokio_s_own_calls_names_both() {
        let point = |who, called: &str, line| {
            let mut point = step(who, Some(("send", line)), Turn::Free);
            point.what = What::Point {
                called: called.to_string(),
            };
            point
        };
        let steps = vec![
            point("ann", "Semaphore::available_permits", 12),
            point("bob", "Semaphore::available_permits", 12),
            point("ann", "Semaphore::try_acquire", 13),
        ];
        assert_eq!(
            race(steps, 2),
            "  the race: it fails where `bob` made Semaphore::available_permits (tests/shop.rs:12),\n            \
            before `ann` made Semaphore::try_acquire (:13), and passes the other way round\n"
        );
    }

    #[test]
    fn a_switch_that_comes_again_is_told_once() {
        let call = |who, word, turn| step(who, Some((word, 12)), turn);
        let mut schedule = Schedule::new(String::new());
        for _ in 0..4 {
            schedule.steps.push(call("reader", "borrow", Turn::Same));
            schedule.steps.push(call("admin", "send", Turn::Switch));
            schedule.steps.push(call("reader", "changed", Turn::Free));
        }
        let words = in_words(&schedule);
        assert_eq!(words.matches("  the switch: ").count(), 1, "{words}");
        assert!(words.ends_with("\n  and 3 more\n"), "{words}");
    }

    #[test]
    fn a_switch_names_who_was_held_before_what_and_what_came_in_between() {
        let mut schedule = Schedule::new("s3.1".to_string());
        schedule.channels = vec![(0, "config".to_string())];
        schedule.steps = vec![
            step("reader", None, Turn::Free),
            step("reader", Some(("borrow", 14)), Turn::Same),
            step("admin", None, Turn::Switch),
            step("admin", Some(("send", 21)), Turn::Same),
            step("reader", None, Turn::Free),
            step("reader", Some(("mark-unchanged", 16)), Turn::Same),
        ];
        assert_eq!(
            in_words(&schedule),
            "  the switch: `reader` was held before config.mark_unchanged (tests/shop.rs:16), after config.borrow (:14),\n\
            \x20             while `admin` made config.send (:21)\n"
        );
    }

    #[test]
    fn of_many_calls_in_between_the_others_are_counted() {
        let mut schedule = Schedule::new("s3.1".to_string());
        schedule.steps = vec![step("reader", Some(("borrow", 14)), Turn::Same)];
        schedule.steps.push(step("admin", None, Turn::Switch));
        let calls = (0..CALLS_TOLD + 3).map(|_| step("admin", Some(("send", 21)), Turn::Same));
        schedule.steps.extend(calls);
        schedule
            .steps
            .push(step("reader", Some(("borrow", 15)), Turn::Same));
        let words = in_words(&schedule);
        assert!(words.contains(" and 3 more"), "{words}");
        assert_eq!(
            words.matches("channel 0.send").count(),
            CALLS_TOLD,
            "{words}"
        );
    }

    #[test]
    fn time_that_passed_is_told_with_who_stood() {
        let mut schedule = Schedule::new("ts1.1".to_string());
        let mut time = step("(time)", None, Turn::Switch);
        time.what = What::Time {
            ready: "`monitor`".to_string(),
        };
        schedule.steps = vec![step("heart", None, Turn::Free), time];
        let wanted = "  time passed at step 2 while `monitor` stood ready\n";
        assert!(in_words(&schedule).ends_with(wanted));
    }

    #[test]
    fn of_many_times_the_first_ones_are_told() {
        let mut schedule = Schedule::new("ts1.1".to_string());
        for _ in 0..200 {
            let mut time = step("(time)", None, Turn::Switch);
            time.what = What::Time {
                ready: "`monitor`".to_string(),
            };
            schedule.steps.push(time);
        }
        let words = in_words(&schedule);
        let told = words.matches("  time passed at step ").count();
        assert!(told == TIMES_TOLD && words.ends_with("  and at 197 further steps\n"));
    }

    #[test]
    fn one_who_is_never_let_go_again_was_held_until_the_end() {
        let mut schedule = Schedule::new("s1.1".to_string());
        schedule.steps = vec![
            step("reader", None, Turn::Free),
            step("admin", None, Turn::Switch),
        ];
        assert_eq!(
            in_words(&schedule),
            "  the switch: `reader` was held until the end,\n              while `admin` went on\n"
        );
    }
}
