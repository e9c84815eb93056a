//! How the test ended, as places of the run: its panics, which of them ended it, or the error that
//! it returned, and the call that the one who failed made last before.

use super::history::History;
use yovanelum_record::journal::{Run, RunEntry};
use yovanelum_record::listed::{IntoList, PushAll};
use yovanelum_record::operation::Operation;
use yovanelum_record::reply::Reply;
use yovanelum_record::sidecar::{Panic, Sidecar, SourceLocation};
use yovanelum_record::visible;

/// A panic of a thread or task, or the error that the test returned.
#[derive(Clone, Copy, Debug, PartialEq, Eq)]
pub(super) struct FailureAt {
    /// What the account calls it.
    pub(super) name: &'static str,
    /// The calls before it.
    pub(super) place: u64,
    pub(super) actor: Option<u64>,
    /// An index into the locations.
    pub(super) location: Option<usize>,
    /// The index of the panic, if it is one.
    pub(super) panic: Option<usize>,
}

impl FailureAt {
    /// Returns its text: of a panic or an error.
    pub(super) fn text<'a>(&self, names: &'a Sidecar) -> Option<&'a str> {
        let text = match self.panic {
            Some(panic) => &names.ending.panics[panic].text,
            None => &names.ending.returned.as_ref()?.text,
        };
        Some(text)
    }
}

/// How a test failed, if it did.
pub(super) struct Failure {
    // In the order in which they began.
    all: Vec<FailureAt>,
    end: Option<usize>,
    last_call: Option<LastCall>,
    // The last call of who failed, if it was neither refused nor is named.
    other_last_call: Option<u64>,
}

/// The last call of who failed.
#[derive(Clone, Copy)]
struct LastCall {
    place: u64,
    /// Whether it is on the line that failed, or the text of the failure has its reply.
    is_named: bool,
}

impl Failure {
    pub(super) fn of(run: &Run, names: &Sidecar, history: &History) -> Failure {
        // What failed in the window has failed behind its lead.
        let place_of = |since| run.place_of_stamp(since).max(history.lead);
        let panics = names.ending.panics.iter().enumerate();
        let panics = panics.map(|(index, panic)| FailureAt {
            name: "the panic",
            place: place_of(panic.since),
            actor: panic.actor.or_else(|| actor_named(names, panic)),
            location: panic.location,
            panic: Some(index),
        });
        let mut all: Vec<_> = panics.listed();
        let end = end_of_panics(&all, names, history);
        let error = names.ending.returned.as_ref().map(|error| FailureAt {
            name: "the error",
            place: place_of(error.since),
            actor: actor_of_test(names),
            location: error.location,
            panic: None,
        });
        let end = if error.is_some() {
            Some(all.len())
        } else {
            end
        };
        all.push_all(error);
        let last_call = end.and_then(|end| last_call(run, names, history, &all[end]));
        let is_why = |call: &LastCall| call.is_named || is_refused(&run.entry(call.place));
        Failure {
            all,
            end,
            last_call: last_call.filter(is_why),
            other_last_call: last_call
                .filter(|call| !is_why(call))
                .map(|call| call.place),
        }
    }

    /// The panic or error that ended the test: what was dropped after it, its unwinding dropped, or
    /// what came of it.
    pub(super) fn end(&self) -> Option<&FailureAt> {
        self.end.map(|end| &self.all[end])
    }

    /// The place of the last call, before the end, of the actor that failed, if its reply is why or
    /// it is on the line that failed.
    pub(super) fn last_call(&self) -> Option<u64> {
        self.last_call.map(|call| call.place)
    }

    /// The place of the last call of the actor that failed, if nothing says that it is why.
    pub(super) fn other_last_call(&self) -> Option<u64> {
        self.other_last_call
    }

    /// Whether that call is on the line that failed, or the text of the failure has its reply.
    pub(super) fn names_last_call(&self) -> bool {
        self.last_call.is_some_and(|call| call.is_named)
    }

    /// Returns the panics that began before the end and that their threads or tasks didn't catch,
    /// the last one first. None of them is the end itself.
    pub(super) fn uncaught<'a>(
        &'a self,
        history: &'a History,
    ) -> impl Iterator<Item = &'a FailureAt> {
        let before = self.all[..self.end.unwrap_or(0)].iter().rev();
        let by_test = self.end().and_then(|end| end.actor);
        before.filter(move |at| {
            let is_of_test = at.actor.is_some() && at.actor == by_test;
            !is_of_test && is_last_of_actor(at, history)
        })
    }

    /// Whether the call that led to this place was made before the end began.
    pub(super) fn is_before_end(&self, place: u64) -> bool {
        self.end().is_none_or(|end| place <= end.place)
    }

    /// The calls by which those that failed lagged last before that: first the one that ended the
    /// test, then the others, the latest first.
    pub(super) fn told_last(&self, history: &History) -> Vec<u64> {
        let others = (0..self.all.len()).rev().filter(|at| Some(*at) != self.end);
        let last_told = |at: usize| {
            let at = &self.all[at];
            history.last_told(at.actor?, at.place)
        };
        let mut told = self.end.and_then(last_told).into_iter().listed();
        told.push_all(others.filter_map(last_told));
        told
    }
}

/// Returns the panic that ended the test: the one that unwound its recorder. Where that isn't
/// known, it is the first one after which its actor made no other calls than drops, or else the
/// last.
fn end_of_panics(panics: &[FailureAt], names: &Sidecar, history: &History) -> Option<usize> {
    let known = names.ending.ended_by.filter(|by| *by < panics.len());
    let uncaught = || panics.iter().position(|at| is_last_of_actor(at, history));
    known
        .or_else(uncaught)
        .or_else(|| panics.len().checked_sub(1))
}

/// Whether the actor of a panic made no other calls than drops after it. One that goes on has
/// caught its panic.
fn is_last_of_actor(at: &FailureAt, history: &History) -> bool {
    at.actor
        .is_none_or(|actor| history.last_call(actor) <= at.place)
}

/// Returns the actor of a panic that had made no recorded call before it: it may have dropped a
/// sender or a receiver since.
fn actor_named(names: &Sidecar, panic: &Panic) -> Option<u64> {
    let who = panic.who.as_ref()?;
    let mut actors = names.actors.iter();
    let (actor, _) = actors.find(|(_, name)| *name == who)?;
    Some(*actor)
}

/// Returns the actor that is the test's own thread.
fn actor_of_test(names: &Sidecar) -> Option<u64> {
    let thread = &names.ending.test.as_ref()?.thread;
    let mut actors = names.actors.iter();
    let (actor, _) = actors.find(|(_, name)| *name == thread)?;
    Some(*actor)
}

/// Returns the last call that an actor made before it failed.
fn last_call(run: &Run, names: &Sidecar, history: &History, end: &FailureAt) -> Option<LastCall> {
    let actor = end.actor?;
    let places = (history.lead + 1..=end.place).rev();
    let mut calls = places.map(|place| (place, run.entry(place)));
    let (place, entry) = calls
        .find(|(_, entry)| u64::from(entry.actor) == actor && entry.word != Operation::Drop)?;
    let text = end.text(names);
    let is_in_text = text.is_some_and(|text| is_named_by(text, &entry));
    let is_named = is_in_text || is_on_line(names, history, (place, &entry), end);
    Some(LastCall { place, is_named })
}

/// Whether the text of a failure has the error that a call returned.
fn is_named_by(text: &str, entry: &RunEntry) -> bool {
    let words: &[&str] = match entry.reply {
        Reply::Lagged(_) => &["Lagged", "lagged"],
        Reply::Closed => &["Closed", "closed", "RecvError"],
        Reply::Empty => &["Empty", "empty"],
        Reply::NoReceivers(_) => &["SendError", "closed"],
        _ => &[],
    };
    words.iter().any(|word| visible::has(text, word))
}

/// Whether a call returned an error.
pub(super) fn is_refused(entry: &RunEntry) -> bool {
    matches!(
        entry.reply,
        Reply::Lagged(_) | Reply::Closed | Reply::Empty | Reply::NoReceivers(_)
    )
}

/// Whether a call is on the line that failed.
fn is_on_line(
    names: &Sidecar,
    history: &History,
    (place, entry): (u64, &RunEntry),
    end: &FailureAt,
) -> bool {
    let calls = names.calls.get(&entry.channel.into());
    let call = calls.and_then(|calls| *calls.get(history.index_on_channel(place))?);
    let line_of = |index: usize| names.locations.get(index).map(line_of);
    let failed = end.location.and_then(line_of);
    failed.is_some() && call.and_then(line_of) == failed
}

fn line_of(location: &SourceLocation) -> (&str, u32) {
    (&location.file, location.line)
}
