//! How a replay went, in words.

use super::ArrivingCall;
use super::divergence::{Divergence, of_tasks};
use super::plan::{Plan, PlannedCall};
use super::state::GateState;
use crate::channels::backend::Actor;
use crate::channels::recorder::NotedPanic;
use crate::channels::turns::TestEnd;
use std::fmt::{self, Write as _};
use yovanelum_record::listed::IntoList;
use yovanelum_record::sidecar::{Panic, Sidecar, SourceLocation};
use yovanelum_record::unnamed::UnnamedChannel;

/// How a replay has gone so far, returned by [`Recorder::replayed`](crate::Recorder::replayed).
///
/// Its text is one line: that all calls were made in the journal's order, at which call the replay
/// diverges from it, or which call it ended before.
///
/// # Examples
///
/// ```
/// use std::{env, fs, process};
/// use yovanelum::{Recorder, broadcast};
///
/// fn two_prices(recorder: &Recorder) {
///     let _entered = recorder.enter();
///     let (prices, mut chart) = broadcast::channel(2);
///     prices.send(101).unwrap();
///     assert_eq!(chart.try_recv(), Ok(101));
/// }
///
/// let path = env::temp_dir().join(format!("two_prices-{}.journal", process::id()));
/// let recorder = Recorder::new();
/// two_prices(&recorder);
/// recorder.save(&path)?;
///
/// let recorder = Recorder::replay(&path)?;
/// two_prices(&recorder);
/// let replayed = recorder.replayed().unwrap();
/// assert!(replayed.is_in_order());
/// assert_eq!(replayed.to_string(), "all 4 calls in the recorded order");
/// # fs::remove_file(path.with_extension("names"))?;
/// # fs::remove_file(&path)?;
/// # Ok::<(), std::io::Error>(())
/// ```
#[derive(Clone, Debug, PartialEq, Eq)]
pub struct Replayed {
    calls: usize,
    made: usize,
    divergence: Option<Divergence>,
    next: String,
    shared: Option<String>,
    other_text: Option<String>,
    // The test whose journal it is.
    has_failed_before: bool,
    failures_before: Vec<PanicBefore>,
}

/// The text of a panic, and where it began.
type PanicBefore = (String, Option<SourceLocation>);

impl Replayed {
    /// Returns `true` if all calls of the journal were made in its order, and the callers of each
    /// could be told apart.
    ///
    /// # Examples
    ///
    /// ```
    /// use std::{env, fs, process};
    /// use yovanelum::{Recorder, broadcast};
    ///
    /// let path = env::temp_dir().join(format!("one_bus-{}.journal", process::id()));
    /// let recorder = Recorder::new();
    /// let entered = recorder.enter();
    /// drop(broadcast::channel::<u32>(2));
    /// drop(entered);
    /// recorder.save(&path)?;
    ///
    /// let recorder = Recorder::replay(&path)?;
    /// assert!(!recorder.replayed().unwrap().is_in_order());
    /// let _entered = recorder.enter();
    /// drop(broadcast::channel::<u32>(2));
    /// assert!(recorder.replayed().unwrap().is_in_order());
    /// # fs::remove_file(path.with_extension("names"))?;
    /// # fs::remove_file(&path)?;
    /// # Ok::<(), std::io::Error>(())
    /// ```
    pub fn is_in_order(&self) -> bool {
        self.made == self.calls && self.divergence.is_none() && self.shared.is_none()
    }

    /// Returns how many calls were made in the journal's order.
    ///
    /// # Examples
    ///
    /// ```
    /// use std::{env, fs, process};
    /// use yovanelum::{Recorder, broadcast};
    ///
    /// let path = env::temp_dir().join(format!("one_drop-{}.journal", process::id()));
    /// let recorder = Recorder::new();
    /// let entered = recorder.enter();
    /// let bus = broadcast::Sender::<u32>::new(2);
    /// drop(entered);
    /// recorder.save(&path)?;
    ///
    /// // The journal has the drop of the first receiver.
    /// let recorder = Recorder::replay(&path)?;
    /// assert_eq!(recorder.replayed().unwrap().calls_in_order(), 0);
    /// let _entered = recorder.enter();
    /// let bus = broadcast::Sender::<u32>::new(2);
    /// assert_eq!(recorder.replayed().unwrap().calls_in_order(), 1);
    /// # fs::remove_file(path.with_extension("names"))?;
    /// # fs::remove_file(&path)?;
    /// # Ok::<(), std::io::Error>(())
    /// ```
    pub fn calls_in_order(&self) -> usize {
        self.made
    }
}

impl Replayed {
    /// Returns the line about the replay at the end of the test.
    pub(super) fn at_end(&self, end: TestEnd) -> String {
        match end {
            TestEnd::Passed if self.is_in_order() && self.has_failed_before => format!(
                "{self}; the order was replayed and the test passed: the failure isn't one of order alone"
            ),
            TestEnd::Passed => format!("{self}; the test passed"),
            TestEnd::Failed(panics) => format!("{self}; {}", self.compared(panics)),
            TestEnd::Unknown => self.to_string(),
        }
    }

    /// Says whether these panics are those of the test whose journal it is.
    fn compared(&self, panics: &[NotedPanic]) -> String {
        let failures = panics.iter();
        let failures: Vec<_> = failures
            .map(|it| (it.text.clone(), it.location.clone()))
            .listed();
        let (Some(last), Some(last_before)) = (failures.last(), self.failures_before.last()) else {
            // An `Err` has no text here.
            return "the test failed".to_string();
        };
        let known: Vec<_> = self.failures_before.iter().map(without_numbers).listed();
        let is_new = |failure: &&PanicBefore| !known.contains(&without_numbers(failure));
        let other = failures.iter().find(is_new);
        let is_last = without_numbers(last) == without_numbers(last_before);
        match other.or(Some(last).filter(|_| !is_last)) {
            None => "the same failure".to_string(),
            Some(other) => format!("another failure: {}", failure_in_words(other)),
        }
    }
}

impl fmt::Display for Replayed {
    fn fmt(&self, f: &mut fmt::Formatter<'_>) -> fmt::Result {
        match &self.divergence {
            Some(divergence) => write!(f, "{divergence}")?,
            None if self.made < self.calls => f.write_str(&self.next)?,
            None => write!(f, "all {} calls in the recorded order", self.calls)?,
        }
        if let Some(shared) = &self.shared {
            write!(f, "; but {shared}")?;
        }
        match &self.other_text {
            Some(other) => write!(f, "; {other}"),
            None => Ok(()),
        }
    }
}

/// Returns how a replay has gone so far.
pub(super) fn replayed(plan: &Plan, state: &GateState) -> Replayed {
    let next = plan.steps.get(state.position);
    Replayed {
        calls: plan.steps.len(),
        made: state.position,
        divergence: state.divergence.clone(),
        next: next.map_or_else(String::new, |step| {
            format!(
                "ended before {}: {}{}",
                call_of(plan, state.position),
                step_in_words(plan, step),
                of_tasks(plan, state)
            )
        }),
        shared: state.shared.clone(),
        other_text: state.other_text.clone(),
        has_failed_before: plan.names.matching.has_failed,
        failures_before: failures(&plan.names),
    }
}

/// Returns the panics that the names have, up to the one that ended the test. Those after it are of
/// the unwinding.
fn failures(names: &Sidecar) -> Vec<PanicBefore> {
    let count = names.ending.ended_by.map_or(usize::MAX, |index| index + 1);
    let panics = names.ending.panics.iter().take(count);
    let failure = |panic: &Panic| {
        let location = panic
            .location
            .and_then(|at| names.locations.get(at).cloned());
        (panic.text.clone(), location)
    };
    panics.map(failure).listed()
}

/// Returns a failure without what differs from run to run: the numbers of tasks and threads,
/// addresses, and times.
fn without_numbers((text, location): &PanicBefore) -> PanicBefore {
    let mut parts = vec![];
    let mut rest = text.as_str();
    while let Some((start, end)) = next_number(rest) {
        parts.push(&rest[..start]);
        rest = &rest[end..];
    }
    parts.push(rest);
    (parts.join("#"), location.clone())
}

/// What stands before a number that differs from run to run.
const BEFORE_NUMBERS: [&str; 3] = ["Id(", "ThreadId(", "0x"];

/// The units of times, of which the longest of several that fit comes first.
const UNITS: [&str; 5] = ["ns", "µs", "us", "ms", "s"];

/// Returns where the next such number begins and ends in a text.
fn next_number(text: &str) -> Option<(usize, usize)> {
    let is_start = |at: usize| !text[..at].ends_with(|c: char| c.is_alphanumeric() || c == '.');
    let numbers = text.match_indices(|c: char| c.is_ascii_digit());
    let mut starts = numbers
        .map(|(at, _)| at)
        .filter(|at| is_start(*at) || text[..*at].ends_with("0x"));
    starts.find_map(|start| {
        let is_address = text[..start].ends_with("0x");
        let is_part =
            |c: char| c.is_ascii_digit() || c == '.' || is_address && c.is_ascii_hexdigit();
        let length = text[start..].find(|c| !is_part(c));
        let end = length.map_or(text.len(), |length| start + length);
        let is_marked = BEFORE_NUMBERS
            .iter()
            .any(|mark| text[..start].ends_with(mark));
        let is_time = UNITS.iter().any(|unit| {
            let rest = text[end..].strip_prefix(unit);
            rest.is_some_and(|rest| !rest.starts_with(char::is_alphanumeric))
        });
        (is_marked || is_time).then_some((start, end))
    })
}

/// How many characters of a panic's text are shown.
const SHOWN: usize = 200;

fn failure_in_words((text, location): &PanicBefore) -> String {
    // An assertion has its values on lines of their own.
    let lines = text.split('\n').map(str::trim);
    let line = lines.filter(|line| !line.is_empty()).listed().join(", ");
    let mut words: String = line.chars().take(SHOWN).collect();
    if line.chars().nth(SHOWN).is_some() {
        words.push('…');
    }
    if let Some(at) = location {
        let _ = write!(words, ", at {}:{}", at.file, at.line);
    }
    words
}

/// Says that the value which the step has sent has another text than in the journal, if it has.
pub(super) fn other_text(plan: &Plan, position: usize, text: &str) -> Option<String> {
    let call = plan.steps.get(position)?.call;
    let texts = plan.names.values.get(&call.channel.into())?;
    let before = texts.get(&call.value?)?;
    (before != text).then(|| {
        format!(
            "{} sent `{text}`, where it had sent `{before}`",
            call_of(plan, position)
        )
    })
}

pub(super) fn call_of(plan: &Plan, position: usize) -> String {
    format!("call {} of {}", position + 1, plan.steps.len())
}

pub(super) fn step_in_words(plan: &Plan, step: &PlannedCall) -> String {
    let call = &step.call;
    let mut words = format!("`{} {}` on ", call.word.text(), call.handle);
    push_channel(&mut words, plan, call.channel);
    push_actor(&mut words, plan, Actor::of(step.call.actor as usize));
    let calls = plan.names.calls.get(&call.channel.into());
    let location = calls.and_then(|calls| *calls.get(step.index as usize)?);
    if let Some(at) = location.and_then(|index| plan.names.locations.get(index)) {
        let _ = write!(words, " at {}:{}", at.file, at.line);
    }
    words
}

/// What is to be done about callers that can't be told apart.
const NAME_EACH: &str = "and a replay can't tell them apart: give each a name of its own";

/// Says that several callers use the handle of this call, which may be one that has moved between
/// workers of a runtime.
pub(super) fn shared_handle(plan: &Plan, coming: &ArrivingCall, may_be_moved: bool) -> String {
    let who = if may_be_moved {
        "workers of a runtime"
    } else {
        "callers"
    };
    let mut words = format!("several {who} use handle {} of ", coming.handle);
    push_channel(&mut words, plan, coming.channel);
    words.push_str(", ");
    words.push_str(if may_be_moved {
        "as one task does that moves between them, or several tasks: name it by `yovanelum::named`"
    } else {
        NAME_EACH
    });
    words
}

/// Says that several callers with this name, or with none, create channels.
pub(super) fn shared_making(name: Option<&str>) -> String {
    match name {
        Some(name) => format!("several callers named `{name}` create channels, {NAME_EACH}"),
        None => format!("several callers without a name create channels, {NAME_EACH}"),
    }
}

pub(super) fn push_channel(words: &mut String, plan: &Plan, channel: u32) {
    let _ = match plan.names.channels.get(&channel.into()) {
        Some(name) => write!(words, "`{name}`"),
        None => {
            let unnamed = UnnamedChannel::of(&plan.names, channel.into());
            write!(words, "{}", unnamed.in_sentence())
        }
    };
}

pub(super) fn push_actor(words: &mut String, plan: &Plan, actor: Actor) {
    let name = plan.names.actors.get(&actor.number().into());
    if let Some(name) = name.filter(|_| plan.is_named(actor)) {
        let _ = write!(words, " by `{name}`");
    }
}

#[cfg(test)]
mod tests {
    use super::*;

    #[test]
    fn numbers_of_tasks_and_addresses_and_times_are_no_difference() {
        let same = |a: &str, b: &str| {
            let [a, b] = [a, b].map(|text| without_numbers(&(text.to_string(), None)));
            a == b
        };
        assert!(same(
            "JoinError::Panic(Id(9), ..)",
            "JoinError::Panic(Id(1), ..)"
        ));
        assert!(same("ThreadId(12) is gone", "ThreadId(3) is gone"));
        assert!(same("at 0x7f3a00ff", "at 0x55bb1c"));
        assert!(same("after 31.2ms, 4s", "after 9ms, 12.5s"));
        assert!(!same("left: 1, right: 2", "left: 1, right: 3"));
        assert!(!same("Id 3", "Id 4"));
        assert!(!same("v2s of 3 shops", "v2s of 4 shops"));
    }
}
