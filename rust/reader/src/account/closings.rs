//! The closings of channels: who dropped the last sender, which receiver was told, and which were
//! not.

use super::Context;
use super::fact::{Fact, FactStep, Role};
use super::finding::orders;
use yovanelum_record::journal::{Closing, LateReader, Spec};
use yovanelum_record::listed::{IntoList, PushAll};
use yovanelum_record::reply::Reply;
use yovanelum_record::sidecar::Json;
use yovanelum_record::sorting::sort_by_key;
use yovanelum_record::visible;

/// How many receivers that were not told are named.
const NAMED: usize = 3;

/// A channel that closed while it had receivers.
pub(super) struct Closed {
    closing: Closing,
    receivers: Vec<LateReader>,
    // Whether the channel had carried a value or a change.
    has_carried: bool,
    // The last call of who failed, if it was told so, and whether the failure names that.
    failed: Option<(u64, bool)>,
}

impl Closed {
    pub(super) fn channel(&self) -> u32 {
        self.closing.channel
    }

    /// The number of the rule that orders it.
    pub(super) fn order(&self) -> u8 {
        match self.failed {
            Some((_, true)) => orders::LAST_CALL,
            Some((_, false)) => orders::REFUSED_BEFORE,
            None if self.has_carried && self.is_known() => orders::ENDED,
            None => orders::CLOSED,
        }
    }

    /// Whether each receiver was told so, as is usual where a sender has done its work.
    fn is_known(&self) -> bool {
        self.receivers.iter().all(|after| after.told.is_some())
    }
}

/// Returns the channels that had a receiver where they closed, in the order of the places: first
/// those of which a receiver wasn't told that is still there. What closed after the end began is
/// left out: that was the unwinding. What closed before the window is none of the run.
pub(super) fn found(context: &Context<'_>) -> Vec<Closed> {
    let closings = context.findings.closings().iter();
    let closings = closings.filter(|closing| {
        closing.place > context.history.lead && context.failure.is_before_end(closing.place)
    });
    let mut closed: Vec<_> = closings
        .map(|closing| Closed {
            closing: *closing,
            receivers: receivers(context, closing.channel),
            has_carried: context.history.channel(closing.channel).last_sent > 0,
            failed: told_to_failed(context, closing.channel),
        })
        .filter(|closed| !closed.receivers.is_empty())
        .listed();
    sort_by_key(&mut closed, |closed| {
        (closed.is_known(), closed.closing.place)
    });
    closed
}

/// Returns the last call of who failed if it was told that a channel is closed, and whether the
/// failure names that.
fn told_to_failed(context: &Context<'_>, channel: u32) -> Option<(u64, bool)> {
    let place = context.failure.last_call()?;
    let call = context.run.entry(place);
    let is_told = call.channel == channel && call.reply == Reply::Closed;
    is_told.then_some((place, context.failure.names_last_call()))
}

/// Returns the receivers that a channel had where it closed, and that were told so or are still
/// there where the test fails. One that was dropped had no more use for it.
fn receivers(context: &Context<'_>, channel: u32) -> Vec<LateReader> {
    // They are in the order of channels.
    let late = context.findings.late();
    let first = late.partition_point(|after| after.channel < channel);
    let end = late.partition_point(|after| after.channel <= channel);
    let history = context.history.channel(channel);
    let is_there = |after: &&LateReader| {
        let handle = history.handle(after.receiver);
        let dropped = handle.and_then(|handle| handle.dropped);
        dropped.is_none_or(|(place, _)| !context.failure.is_before_end(place))
    };
    let late = late[first..end].iter();
    late.filter(|after| after.told.is_some() || is_there(after))
        .copied()
        .listed()
}

/// Puts a closing into words.
pub(super) fn fact(context: &Context<'_>, closed: &Closed) -> Fact {
    match closed.failed {
        Some((told, _)) => fact_of_failed(context, closed, told),
        None => fact_of_all(context, closed),
    }
}

/// Puts a closing into words that the last call of who failed was told.
fn fact_of_failed(context: &Context<'_>, closed: &Closed, told: u64) -> Fact {
    let Closing { channel, place } = closed.closing;
    let naming = context.naming;
    let call = context.run.entry(told);
    let receiver = naming.receiver(channel, call.handle);
    let steps = vec![
        context.step(
            place,
            Role::Close,
            "dropped the last sender".to_string(),
            String::new(),
        ),
        context.step(
            told,
            Role::Told,
            "told: closed".to_string(),
            naming.call(told, &call),
        ),
    ];
    let head = format!(
        "{} was told Closed, since {} the last sender of {} ({})",
        receiver.full,
        context.who_dropped(place),
        naming.channel(channel),
        visible::call(place),
    );
    Fact::new("closing", members(context, closed), head, steps, place)
}

fn members(context: &Context<'_>, closed: &Closed) -> Vec<(&'static str, Json)> {
    let told = closed.receivers.iter().filter(|it| it.told.is_some());
    let mut members = vec![
        ("channel", Json::number(closed.channel())),
        ("receivers", Json::number(closed.receivers.len())),
        ("told", Json::number(told.count())),
    ];
    if let Some((place, _)) = closed.failed {
        let receiver = context.run.entry(place).handle;
        members.push(("receiver", Json::number(receiver)));
    }
    members
}

/// Puts a closing into words that failed nobody, as far as it is known.
fn fact_of_all(context: &Context<'_>, closed: &Closed) -> Fact {
    let Closing { channel, place } = closed.closing;
    let receivers = closed.receivers.iter();
    let told = receivers.clone().filter_map(|it| Some((it.told?, it)));
    let not_told = receivers.filter(|after| after.told.is_none());
    let not_told: Vec<_> = not_told.map(|after| missed(context, after)).listed();
    let count = closed.receivers.len() - not_told.len();
    let close = "dropped the last sender".to_string();
    let mut steps = vec![context.step(place, Role::Close, close, String::new())];
    let first = told.min_by_key(|(place, _)| *place);
    steps.push_all(first.map(|(place, after)| first_told(context, place, after)));
    let head = format!(
        "{} closed, and {}",
        context.naming.channel(channel),
        how_many_were_told(count, closed.receivers.len()),
    );
    Fact {
        last: (!not_told.is_empty()).then(|| {
            let names = visible::first(&not_told, NAMED, ", ");
            format!("  not that far: {names}")
        }),
        ..Fact::new("closing", members(context, closed), head, steps, place)
    }
}

fn how_many_were_told(told: usize, all: usize) -> String {
    match (told, all) {
        (0, 1) => "its receiver has not read that far".to_string(),
        (1, 1) => "its receiver was told".to_string(),
        (told, all) => format!("{told} of {all} receivers were told"),
    }
}

/// Returns the first call that was told so.
fn first_told(context: &Context<'_>, place: u64, after: &LateReader) -> FactStep {
    let naming = context.naming;
    let receiver = naming.receiver(after.channel, after.receiver).short;
    let actor = naming.actor(context.run.entry(place).actor.into());
    let name = Some(receiver).filter(|receiver| *receiver != actor);
    let read_on = match after.read_on {
        0 => None,
        count => Some(after_more(context, after.channel, count)),
    };
    let mut said = name.into_iter().listed();
    said.push_all(read_on);
    context.step(
        place,
        Role::Told,
        "told: closed".to_string(),
        said.join(", "),
    )
}

/// Returns a receiver that was not told, and how many values it received after the close.
fn missed(context: &Context<'_>, after: &LateReader) -> String {
    let called = context.naming.receiver(after.channel, after.receiver);
    match after.read_on {
        0 => called.full,
        count => {
            let read_on = after_more(context, after.channel, count);
            format!("{} ({read_on})", called.full)
        }
    }
}

/// Says how many values of a broadcast, or changes of a watch, a receiver got after the close.
fn after_more(context: &Context<'_>, channel: u32, count: u64) -> String {
    let more = match context.run.specs()[channel as usize] {
        Spec::Broadcast(_) => "more value",
        Spec::Watch(_) => "more change",
    };
    format!("after {}", visible::counted(count, more))
}
