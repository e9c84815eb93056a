//! What is noted of a panic, for the names beside a journal.

use super::Shared;
use crate::channels::actors;
use crate::channels::cut::start_of;
use std::panic::PanicHookInfo;
use std::thread::{self, ThreadId};
use std::time::Duration;
use yovanelum_record::sidecar::{Panic, Sidecar, SourceLocation};

/// How many bytes of the text of a panic, or of an error, are noted.
pub(crate) const MOST_BYTES: usize = 4096;

/// How long a panic waits for a lock that another thread may hold. If the thread itself holds it,
/// that thread would wait forever.
pub(crate) const PATIENCE: Duration = Duration::from_millis(500);

/// A panic as the hook sees it.
#[derive(Clone, Debug)]
pub(crate) struct NotedPanic {
    pub(crate) text: String,
    pub(crate) location: Option<SourceLocation>,
    actor: Option<u64>,
    who: Option<String>,
    task: Option<u64>,
    thread: ThreadId,
    since: u64,
}

impl NotedPanic {
    /// Notes a panic of this thread, for a run of this recorder.
    pub(crate) fn of(info: &PanicHookInfo<'_>, recorder: &Shared) -> NotedPanic {
        NotedPanic {
            text: text_of(info),
            location: info.location().map(SourceLocation::from),
            actor: recorder.known_actor(PATIENCE),
            who: actors::name_of_caller(),
            task: actors::current_task(),
            thread: thread::current().id(),
            since: recorder.last(),
        }
    }

    /// Whether it is a panic of the thread that calls.
    pub(crate) fn is_of_this_thread(&self) -> bool {
        self.thread == thread::current().id()
    }

    /// Adds it to the names.
    pub(crate) fn add_to(&self, names: &mut Sidecar) {
        let location = self.location.as_ref();
        let location = location.map(|location| names.index_of(location));
        names.ending.panics.push(Panic {
            text: self.text.clone(),
            location,
            actor: self.actor,
            who: self.who.clone(),
            task: self.task,
            since: self.since,
        });
    }

    /// Says who has panicked, and where.
    pub(crate) fn in_words(&self) -> String {
        let thread = thread::current();
        let name = thread.name().unwrap_or("a thread without a name");
        match &self.location {
            Some(at) => format!("{name} panicked at {}:{}: {}", at.file, at.line, self.text),
            None => format!("{name} panicked: {}", self.text),
        }
    }
}

#[cfg(test)]
impl NotedPanic {
    /// A panic of this thread with this text, at no place and before all calls.
    pub(crate) fn with_text(text: &str) -> NotedPanic {
        NotedPanic {
            text: text.to_string(),
            location: None,
            actor: None,
            who: None,
            task: None,
            thread: thread::current().id(),
            since: 0,
        }
    }
}

/// Returns the text of a panic, or none if it is no text.
pub(crate) fn text_of(info: &PanicHookInfo<'_>) -> String {
    let payload = info.payload();
    let text = payload.downcast_ref::<&str>().copied();
    let text = text.or_else(|| payload.downcast_ref::<String>().map(String::as_str));
    let text = text.unwrap_or_default();
    start_of(text, MOST_BYTES).to_string()
}
