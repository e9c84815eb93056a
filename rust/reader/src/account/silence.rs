//! Calls that got nothing: one that still waits, one that waited and was dropped, one that found
//! nothing, and sends that reached nobody. It is said what could have ended the wait: who still
//! holds a sender, and whether a value came before the receiver.

use super::fact::{Fact, FactStep, Role};
use super::failure::FailureAt;
use super::finding::orders;
use super::history::Unreached;
use super::marked::Marked;
use super::nothing_came::NothingCame;
use super::reading::last_drop;
use super::window::number_in_snapshots;
use super::{Context, last_change, lateness, locked, value, waits, woken};
use yovanelum_record::listed::{IntoList, PushAll};
use yovanelum_record::reply::Reply;
use yovanelum_record::sidecar::{Json, WaitingCall};
use yovanelum_record::sorting::sort_by;
use yovanelum_record::visible;

/// How many of the senders that could end a wait are named.
const NAMED: usize = 3;

/// What the text of a failure has that came of a wait.
const TIMED_OUT: [&str; 4] = ["Elapsed", "deadline has elapsed", "timed out", "timeout"];

/// What got nothing.
pub(super) enum Silence {
    /// A call that waits, or waited when the test failed, by its index among those.
    Waits(usize),
    /// A call that waited and was dropped, by its index among those.
    Dropped(usize),
    /// The last call of who failed, which found nothing, and whether the failure names it.
    Empty(u64, bool),
    /// The last call of who failed, which returned a value, and whether that may be why.
    Value(u64, bool),
    /// The sends of a channel that reached nobody. The last call of who failed may be one.
    Unreached(u32, Unreached, bool),
}

impl Silence {
    /// The number of the rule that orders it.
    pub(super) fn order(&self) -> u8 {
        match self {
            Silence::Waits(_) | Silence::Dropped(_) => orders::WAITED,
            Silence::Empty(_, true) | Silence::Unreached(_, _, true) => orders::LAST_CALL,
            Silence::Empty(_, false) => orders::REFUSED_BEFORE,
            Silence::Value(_, true) => orders::LAST_VALUE,
            Silence::Value(_, false) => orders::OTHER_VALUE,
            Silence::Unreached(..) => orders::UNREACHED,
        }
    }
}

impl Silence {
    /// Whether it tells that a receiver waits for a change which it marked as seen without a look.
    pub(super) fn tells_of_mark(&self, context: &Context<'_>, receiver: (u32, u32)) -> bool {
        let call = match self {
            Silence::Waits(index) => waits::at_failure(context, *index),
            Silence::Dropped(index) => &context.names.dropped_waits[*index],
            _ => return false,
        };
        // Whose wait it is comes first: to look for a mark is to pass over the run.
        of_wait(call) == receiver && {
            let until = before_failure(context, end_of(context, call));
            Marked::of(context, call, until).is_some_and(|it| it.is_unseen)
        }
    }

    /// The channel of which it tells that sends reached nobody.
    fn tells_unreached(&self, context: &Context<'_>) -> Option<u32> {
        let (channel, handle) = match self {
            Silence::Waits(index) => of_wait(waits::at_failure(context, *index)),
            Silence::Dropped(index) => of_wait(&context.names.dropped_waits[*index]),
            Silence::Empty(place, _) | Silence::Value(place, _) => {
                let entry = context.run.entry(*place);
                (entry.channel, entry.handle)
            }
            Silence::Unreached(..) => return None,
        };
        let history = context.history.channel(channel);
        let made = history.handle(handle)?.made;
        history.unreached.filter(|sends| sends.last < made)?;
        Some(channel)
    }
}

fn of_wait(call: &WaitingCall) -> (u32, u32) {
    (call.channel as u32, call.handle as u32)
}

/// Returns what got nothing that the failure may have come of.
pub(super) fn found(context: &Context<'_>) -> Vec<Silence> {
    let last = context.failure.last_call();
    let reply = last.map(|place| context.run.entry(place).reply);
    let empty = last.filter(|_| reply == Some(Reply::Empty));
    let failed = last.filter(|_| matches!(reply, Some(Reply::NoReceivers(_))));
    let failed = failed.map(|place| context.run.entry(place).channel);
    let is_value = |place: &u64| matches!(context.run.entry(*place).reply, Reply::Value(_));
    let value = last.filter(is_value).map(|place| (place, true));
    let other = context.failure.other_last_call();
    let other = other.filter(|place| value::is_explained(context, *place));
    let value = value.or(other.map(|place| (place, false)));
    let is_named = context.failure.names_last_call();
    let mut found = vec![];
    found.push_all(dropped(context).map(Silence::Dropped));
    found.push_all(waits_of_failure(context));
    found.push_all(empty.map(|place| Silence::Empty(place, is_named)));
    found.push_all(value.map(|(place, is_why)| Silence::Value(place, is_why)));
    let told: Vec<_> = found
        .iter()
        .filter_map(|it| it.tells_unreached(context))
        .listed();
    let unreached = (0..context.run.specs().len() as u32).filter(|it| !told.contains(it));
    found.push_all(unreached.filter_map(|channel| {
        let unreached = context.history.channel(channel).unreached?;
        Some(Silence::Unreached(
            channel,
            unreached,
            is_named && failed == Some(channel),
        ))
    }));
    found
}

/// Returns the calls that waited when the test failed, or that wait now if it hangs: if the failure
/// came of a wait. The one that began first is the first.
fn waits_of_failure(context: &Context<'_>) -> Vec<Silence> {
    let channels = context.run.specs().len() as u64;
    let is_why = match context.failure.end() {
        None => context.names.ending.hangs,
        Some(_) => has_timed_out(context),
    };
    let names = context.names;
    let waits = names.waiting.iter().chain(&names.waited_at_failure);
    let mut calls = vec![];
    for (index, call) in waits.enumerate() {
        if is_why && call.channel < channels {
            calls.push((call.since, index));
        }
    }
    sort_by(&mut calls, |one, other| one.cmp(other));
    let indexes = calls.iter().map(|(_, index)| *index);
    indexes.map(Silence::Waits).listed()
}

/// Whether the text of the failure says that a time was over.
fn has_timed_out(context: &Context<'_>) -> bool {
    let text = context.failure_text();
    text.is_some_and(|text| TIMED_OUT.iter().any(|word| visible::has(text, word)))
}

/// Returns the wait that who failed dropped last, if it made no call since and is on a channel of
/// the run. One that is told as a wait at the failure was dropped by its unwinding.
fn dropped(context: &Context<'_>) -> Option<usize> {
    let FailureAt { place, actor, .. } = context.failure.end()?;
    let channels = context.run.specs().len() as u64;
    let dropped = context.names.dropped_waits.iter().enumerate().rev();
    let dropped = dropped.filter(|(_, call)| call.channel < channels);
    let is_last = |call: &WaitingCall| {
        let until = context.run.place_of_stamp(call.until.unwrap_or(call.since));
        let last = context.history.last_call(call.actor);
        until <= *place && last <= until
    };
    let waited = &context.names.waited_at_failure;
    let is_told =
        |call: &WaitingCall| has_timed_out(context) && waited.iter().any(|it| it.is_same(call));
    let mut of_failed =
        dropped.filter(|(_, call)| Some(call.actor) == *actor && is_last(call) && !is_told(call));
    of_failed.next().map(|(index, _)| index)
}

/// Puts it into words.
pub(super) fn fact(context: &Context<'_>, silence: &Silence) -> Fact {
    match silence {
        Silence::Waits(index) => waited(context, waits::at_failure(context, *index)),
        Silence::Dropped(index) => waited(context, &context.names.dropped_waits[*index]),
        Silence::Empty(place, _) => found_nothing(context, *place),
        Silence::Value(place, _) => value::fact(context, *place),
        Silence::Unreached(_, _, true) => refused_send(context),
        Silence::Unreached(channel, unreached, _) => reached_nobody(context, *channel, *unreached),
    }
}

/// Puts a call into words that waits, or waited until it was dropped.
fn waited(context: &Context<'_>, call: &WaitingCall) -> Fact {
    let naming = context.naming;
    let (channel, handle) = (call.channel as u32, call.handle as u32);
    let since = context.place_of(call.since);
    let until = end_of(context, call);
    let method = naming.method(channel, &visible::name(&call.call));
    let who = naming.actor(call.actor);
    let until = before_failure(context, until);
    let why = why_it_waits(context, call, until);
    // What it does, and what it did from its beginning on.
    let (verb, did) = match call.until {
        None if why.is_woken => ("was woken".to_string(), "waited".to_string()),
        None => ("waits".to_string(), "waits".to_string()),
        Some(_) => {
            let did = match call.waited {
                Some(time) => format!("waited {} and was dropped", visible::duration(time)),
                None => "waited and was dropped".to_string(),
            };
            (did.clone(), did)
        }
    };
    let late = if why.is_woken {
        vec![]
    } else {
        lateness::of_wait(context, call, until)
    };
    let mut steps = why.steps;
    let location = call.location.and_then(|index| naming.source(index));
    let stamp = number_in_snapshots(context.names, call.since);
    steps.push(FactStep {
        place: since,
        role: Role::Begin,
        actor: Some(call.actor),
        location: location.cloned(),
        made: naming.made(channel, handle).cloned(),
        time: None,
        stamp,
        cells: [
            context.since(since),
            method.clone(),
            who.clone(),
            location.map_or(String::new(), visible::line_of),
            stamp.map_or(did.clone(), |stamp| format!("{did}; {stamp} in snapshots")),
        ],
    });
    let kind = if call.until.is_some() {
        "dropped"
    } else {
        "wait"
    };
    let members = vec![
        ("channel", Json::number(channel)),
        ("handle", Json::number(handle)),
        ("call", Json::text(&call.call)),
        ("name", Json::text(&who)),
        ("waited", call.waited.map_or(Json::Null, Json::number)),
    ];
    let head = format!("`{method}` of {who} {verb}: {}", why.text);
    Fact {
        last: why.last,
        late,
        ..Fact::new(kind, members, head, steps, since)
    }
}

/// Returns the place at which a call had waited, or to which it waits.
fn end_of(context: &Context<'_>, call: &WaitingCall) -> u64 {
    let until = call.until.map(|until| context.place_of(until));
    until.unwrap_or(context.run.len())
}

/// What unwinding did after the failure isn't why a call waited.
fn before_failure(context: &Context<'_>, until: u64) -> u64 {
    let end = context.failure.end();
    end.map_or(until, |end| until.min(end.place))
}

/// Why a call waits, or waited until it was woken or dropped.
struct WhyItWaits {
    /// Whether it was woken, and has not gone on since.
    is_woken: bool,
    text: String,
    /// The calls that show it.
    steps: Vec<FactStep>,
    /// Who could have ended it.
    last: Option<String>,
}

/// Says why a call waits, up to a place.
fn why_it_waits(context: &Context<'_>, call: &WaitingCall, until: u64) -> WhyItWaits {
    if let Some(by) = call.held_by {
        // Nothing that is sent could end this.
        return WhyItWaits {
            is_woken: false,
            text: locked::text(context, by),
            steps: Vec::from_iter(locked::step(context, call, by)),
            last: None,
        };
    }
    let awakening = woken::awakening(context, call, until);
    if awakening.is_some() || woken::is_woken_somewhere(context, call) {
        let since = awakening.map(|it| visible::call(it.place()));
        let since = since.map(|call| format!(" {call}, which ends it"));
        return WhyItWaits {
            is_woken: true,
            text: format!("it was not polled since{}", since.unwrap_or_default()),
            steps: Vec::from_iter(awakening.map(|it| it.step(context))),
            last: None,
        };
    }
    let receiver = (call.channel as u32, call.handle as u32);
    let why = NothingCame::of(context, receiver, until);
    let marked = Marked::of(context, call, until);
    let by_mark = marked.as_ref().map(|it| it.text(context));
    let mut steps = why.steps(context).listed();
    steps.push_all(last_change::steps(context, call, until));
    steps.push_all(marked.iter().map(|it| it.step(context)));
    WhyItWaits {
        is_woken: false,
        text: why.text(context) + by_mark.as_deref().unwrap_or_default(),
        steps,
        last: who_could_end(context, call, until),
    }
}

/// Puts the last call of who failed into words, which found nothing.
fn found_nothing(context: &Context<'_>, place: u64) -> Fact {
    let entry = context.run.entry(place);
    let receiver = context.naming.receiver(entry.channel, entry.handle);
    let why = NothingCame::of(context, (entry.channel, entry.handle), place);
    let mut steps: Vec<_> = why.steps(context).listed();
    let call = context.naming.call(place, &entry);
    steps.push(context.step(place, Role::Told, "found nothing".to_string(), call));
    let members = vec![
        ("channel", Json::number(entry.channel)),
        ("receiver", Json::number(entry.handle)),
        ("name", Json::text(&receiver.short)),
    ];
    let head = format!("{} found nothing: {}", receiver.full, why.text(context));
    Fact::new("empty", members, head, steps, place)
}

/// Puts sends that reached nobody into words.
fn reached_nobody(context: &Context<'_>, channel: u32, unreached: Unreached) -> Fact {
    let Unreached { count, first, last } = unreached;
    let naming = context.naming;
    let handles = context.history.channel(channel).handles();
    let later = handles.filter(|(_, handle)| handle.is_receiver && handle.made > first);
    let later = later.map(|(number, handle)| (handle.made, number)).min();
    let sends = visible::sends(count);
    let then = match later {
        Some((made, number)) => format!(
            "; {} was created later ({})",
            naming.receiver(channel, number).short,
            visible::call(made)
        ),
        None => last_drop(context, channel, first).map_or(String::new(), |dropped| {
            format!(
                ", since {} the last receiver ({})",
                context.who_dropped(dropped),
                visible::call(dropped)
            )
        }),
    };
    let step = |place: u64, said: &str| {
        let call = naming.call(place, &context.run.entry(place));
        context.step(place, Role::Sent, call, said.to_string())
    };
    let mut steps = vec![step(first, "reached nobody")];
    steps.push_all((last > first).then(|| step(last, "the last that reached nobody")));
    if let Some((made, _)) = later.filter(|(made, _)| *made > 0) {
        let created = "created a receiver".to_string();
        steps.push(context.step(made, Role::Begin, created, String::new()));
    }
    let members = vec![
        ("channel", Json::number(channel)),
        ("sends", Json::number(count)),
    ];
    let head = format!(
        "{sends} of {} reached nobody{then}",
        naming.channel(channel)
    );
    Fact {
        sights: (0..steps.len()).listed(),
        ..Fact::new("unreached", members, head, steps, first)
    }
}

/// Puts the last call of who failed into words, a send that no receiver was there for.
fn refused_send(context: &Context<'_>) -> Fact {
    let place = context.failure.last_call().expect("it is the send");
    let entry = context.run.entry(place);
    let naming = context.naming;
    let dropped = last_drop(context, entry.channel, place);
    let why = match dropped {
        Some(dropped) => format!(
            "since {} the last receiver ({})",
            context.who_dropped(dropped),
            visible::call(dropped)
        ),
        None => "since there was none yet".to_string(),
    };
    let close = dropped.map(|dropped| {
        let what = "dropped the last receiver".to_string();
        context.step(dropped, Role::Close, what, String::new())
    });
    let mut steps: Vec<_> = close.into_iter().listed();
    let call = naming.call(place, &entry);
    steps.push(context.step(place, Role::Told, call, "reached nobody".to_string()));
    let members = vec![
        ("channel", Json::number(entry.channel)),
        ("sends", Json::number(1)),
    ];
    let channel = naming.channel(entry.channel);
    let head = format!("a send of {channel} reached nobody, {why}");
    Fact::new("unreached", members, head, steps, dropped.unwrap_or(place))
}

/// Returns the place of the last call up to a place that sent a value to a channel, or changed it.
pub(super) fn last_sent(context: &Context<'_>, channel: u32, at: u64) -> u64 {
    let last = context.history.channel(channel).last_sent;
    if last <= at {
        return last;
    }
    let behind_lead = (context.history.lead, at);
    let sent = context.causes().last_sent(channel, behind_lead);
    sent.unwrap_or(0)
}

/// Returns the line that names who could end a wait: the senders that are alive, or for `closed`
/// the receivers.
fn who_could_end(context: &Context<'_>, call: &WaitingCall, at: u64) -> Option<String> {
    let channel = call.channel as u32;
    let history = context.history.channel(channel);
    let waits_for_receivers = call.call == "closed";
    let handles = history.handles().filter(|(_, handle)| {
        handle.is_receiver == waits_for_receivers && !handle.is_weak && handle.is_alive_at(at)
    });
    let named: Vec<_> = handles
        .map(|(number, _)| holder(context, channel, number))
        .listed();
    let what = if waits_for_receivers {
        "receivers"
    } else {
        "senders"
    };
    Some(match named.as_slice() {
        [] => format!("  no {what} are left"),
        named => format!("  {what}: {}", visible::first(named, NAMED, ", ")),
    })
}

/// Returns what a handle is called that is alive, with where it was created and when it was used
/// last.
fn holder(context: &Context<'_>, channel: u32, number: u32) -> String {
    let naming = context.naming;
    let handle = context.history.channel(channel).handle(number);
    let used = handle.map_or(0, |handle| handle.last_use);
    let used = match used {
        0 => "never used".to_string(),
        place => {
            let by = naming.actor(context.run.entry(place).actor.into());
            format!("last used at {} by {by}", visible::call(place))
        }
    };
    format!("{} ({used})", naming.handle(channel, number))
}
