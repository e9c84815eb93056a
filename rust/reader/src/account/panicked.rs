//! The panic of another thread or task that the failure came of: it was joined, or its unwinding
//! closed the channel on which the one that failed was refused.

use super::Context;
use super::fact::{Fact, FactStep, Role};
use super::failure::FailureAt;
use yovanelum_record::listed::{IntoList, PushAll};
use yovanelum_record::operation::Operation;
use yovanelum_record::reply::Reply;
use yovanelum_record::sidecar::Json;
use yovanelum_record::visible;

/// What the text of a failure has that came of a task or thread which panicked.
const JOINED: [&str; 2] = ["JoinError::Panic(", "Any { .. }"];

/// The drop by which a channel was closed for those who failed, and the call that was told so.
#[derive(Clone, Copy)]
struct ClosedBy {
    dropped: u64,
    told: u64,
    /// Whether the last receiver was dropped, and not the last sender.
    is_receiver: bool,
}

/// A panic of another thread or task.
pub(super) struct Panicked {
    at: FailureAt,
    closed: Option<ClosedBy>,
    /// Whether the failure names it or came of what it dropped.
    is_cause: bool,
}

impl Panicked {
    /// The channel that it closed.
    pub(super) fn closed_channel(&self, context: &Context<'_>) -> Option<u32> {
        let closed = self.closed.as_ref()?;
        Some(context.run.entry(closed.told).channel)
    }

    /// Whether the failure surely came of it. Otherwise it is only known to come before.
    pub(super) fn is_cause(&self) -> bool {
        self.is_cause
    }
}

/// Returns the panic of another thread or task that comes before the failure, if there is one: the
/// one that the failure names, or whose unwinding closed what the last call needed, or the last.
pub(super) fn found(context: &Context<'_>) -> Option<Panicked> {
    let uncaught: Vec<_> = context.failure.uncaught(context.history).copied().listed();
    let closed = closed(context);
    let joined = is_joined(context).then(|| joined(context, &uncaught));
    let closer = closed.and_then(|closed| {
        let by = u64::from(context.run.entry(closed.dropped).actor);
        let of_closer = |at: &&FailureAt| at.actor == Some(by) && at.place < closed.dropped;
        uncaught.iter().find(of_closer)
    });
    if let Some(at) = joined.flatten() {
        let closed = closed.filter(|_| closer == Some(&at));
        return Some(Panicked {
            at,
            closed,
            is_cause: true,
        });
    }
    let (at, closed) = match closer {
        Some(at) => (at, closed),
        None => (uncaught.first()?, None),
    };
    Some(Panicked {
        at: *at,
        closed,
        is_cause: closer.is_some(),
    })
}

/// Whether the text of the failure says that a task or thread was joined which had panicked.
fn is_joined(context: &Context<'_>) -> bool {
    let text = context.failure_text();
    text.is_some_and(|text| JOINED.iter().any(|word| visible::has(text, word)))
}

/// Returns the panic of the task whose number the failure's text has, or else the last one.
fn joined(context: &Context<'_>, uncaught: &[FailureAt]) -> Option<FailureAt> {
    let text = context.failure_text()?;
    let panics = &context.names.ending.panics;
    let is_named = |at: &&FailureAt| {
        let task = at.panic.and_then(|panic| panics[panic].task);
        task.is_some_and(|task| visible::has(text, &format!("Id({task})")))
    };
    let named = uncaught.iter().find(is_named);
    named.or(uncaught.first()).copied()
}

/// Returns the drop by which the last call of who failed found its channel closed.
fn closed(context: &Context<'_>) -> Option<ClosedBy> {
    let told = context.failure.last_call()?;
    let call = context.run.entry(told);
    let is_receiver = match call.reply {
        Reply::Closed => call.word == Operation::Closed,
        Reply::NoReceivers(_) => true,
        _ => return None,
    };
    let history = context.history.channel(call.channel);
    let dropped = history.handles().filter_map(|(_, handle)| {
        let (place, _) = handle
            .dropped
            .filter(|_| handle.is_receiver == is_receiver)?;
        (place < told).then_some(place)
    });
    Some(ClosedBy {
        dropped: dropped.max()?,
        told,
        is_receiver,
    })
}

/// Puts it into words.
pub(super) fn fact(context: &Context<'_>, panicked: &Panicked) -> Fact {
    let at = &panicked.at;
    let who = context.who_panicked(at);
    let text = at
        .panic
        .map(|panic| &context.names.ending.panics[panic].text);
    let text = text.map(|text| visible::line(text)).unwrap_or_default();
    let location = context.naming.source(at.location.unwrap_or(usize::MAX));
    let place = location.map_or(String::new(), |location| {
        format!(" at {}", visible::line_of(location))
    });
    let of = match text.as_str() {
        "" => String::new(),
        text => format!(": {text}"),
    };
    let closing = panicked.closed.map(|closed| came_of(context, closed));
    let mut steps = vec![panic_step(context, at, who.clone())];
    if let Some(closed) = panicked.closed {
        steps.push_all(steps_of(context, closed));
    }
    let number = at.panic.map_or(Json::Null, Json::number);
    let members = vec![("name", Json::text(&who)), ("panic", number)];
    let head = format!("`{who}` panicked{place}{of}{}", closing.unwrap_or_default());
    Fact {
        sights: (0..steps.len()).listed(),
        ..Fact::new("panic", members, head, steps, at.place)
    }
}

/// Says what a panic closed, and who was told so.
fn came_of(context: &Context<'_>, closed: ClosedBy) -> String {
    let call = context.run.entry(closed.told);
    let dropped = visible::call(closed.dropped);
    let told = visible::call(closed.told);
    if closed.is_receiver {
        return format!(
            "; its receiver was the last ({dropped}), so {} was refused ({told})",
            context.naming.call(closed.told, &call)
        );
    }
    let receiver = context.naming.receiver(call.channel, call.handle).short;
    format!("; its sender was the last ({dropped}), so `{receiver}` was told Closed ({told})")
}

fn panic_step(context: &Context<'_>, at: &FailureAt, who: String) -> FactStep {
    let location = context.naming.source(at.location.unwrap_or(usize::MAX));
    let cells = [
        "a panic".to_string(),
        "unwinds".to_string(),
        who,
        location.map_or(String::new(), visible::line_of),
        String::new(),
    ];
    FactStep {
        actor: at.actor,
        location: location.cloned(),
        ..FactStep::new(at.place, Role::Panic, cells)
    }
}

/// The drop that closed the channel, and the call that was told.
fn steps_of(context: &Context<'_>, closed: ClosedBy) -> [FactStep; 2] {
    let (what, told) = if closed.is_receiver {
        ("dropped the last receiver", "told: no receivers")
    } else {
        ("dropped the last sender", "told: closed")
    };
    let step = |place, role, what: &str| {
        let channel = context.run.entry(place).channel;
        context.step(
            place,
            role,
            what.to_string(),
            context.naming.channel(channel),
        )
    };
    [
        step(closed.dropped, Role::Close, what),
        step(closed.told, Role::Told, told),
    ]
}
