//! The losses of a run: which receiver lost how many values, which send began it, and whether the
//! receiver was told.

use super::Context;
use super::fact::{Fact, FactStep, Role};
use super::failure::FailureAt;
use super::finding::orders;
use super::lateness::{self, Late};
use super::naming::Called;
use super::traffic::LostValues;
use super::window::number_in_snapshots;
use std::cmp::Reverse;
use yovanelum_record::journal::{Loss, LossEnd, Spec};
use yovanelum_record::listed::{IntoList, PushAll};
use yovanelum_record::numbered::{NumberMap, NumberSet};
use yovanelum_record::sidecar::Json;
use yovanelum_record::sorting::sort_by_key;
use yovanelum_record::visible;

/// By what the losses of a receiver are ordered.
#[derive(Clone, Copy, Debug, PartialEq, Eq, PartialOrd, Ord)]
enum Rank {
    /// It is what the last call of who failed was told.
    LastCall,
    /// Who failed was told this last of its losses. What ended the test is first, then the latest
    /// panic.
    ToldLast(usize),
    /// The receiver was told by this call, before the end began if this is `false`.
    Told(bool, Reverse<u64>),
    /// Nobody was told.
    Untold,
    /// Nobody was told, and nothing was ever received.
    Held,
}

impl Rank {
    fn order(self) -> u8 {
        match self {
            Rank::LastCall => orders::LAST_CALL,
            Rank::ToldLast(_) => orders::LOSS_OF_FAILED,
            Rank::Told(..) => orders::LOSS_TOLD,
            Rank::Untold => orders::LOSS_UNTOLD,
            Rank::Held => orders::UNUSED,
        }
    }
}

/// What a receiver has lost.
pub(super) struct Lost {
    pub(super) count: u64,
    losses: u64,
    rank: Rank,
    // The loss that is told in detail, and its index among those of the traffic.
    told: Loss,
    index: usize,
    // Where the latest of its losses began.
    latest: u64,
}

/// How a loss ended, as the account tells it.
#[derive(Clone, Copy)]
enum ToldEnd {
    Told(u64),
    Dropped(u64),
    Failure(FailureAt),
    Open,
}

impl ToldEnd {
    /// A drop after the end began tells nothing: the test had failed before.
    fn of(context: &Context<'_>, loss: &Loss) -> ToldEnd {
        let failure = context.failure;
        match (loss.end, failure.end()) {
            (LossEnd::Told(place), _) => ToldEnd::Told(place),
            (LossEnd::Dropped(place), _) if failure.is_before_end(place) => ToldEnd::Dropped(place),
            (_, Some(end)) if loss.from <= end.place => ToldEnd::Failure(*end),
            _ => ToldEnd::Open,
        }
    }

    fn word(self) -> &'static str {
        match self {
            ToldEnd::Told(_) => "told",
            ToldEnd::Dropped(_) => "dropped",
            ToldEnd::Failure(_) => "failure",
            ToldEnd::Open => "open",
        }
    }
}

/// Returns the receivers that lost values, in the order in which they are told.
pub(super) fn found(context: &Context<'_>) -> Vec<Lost> {
    let told_last = context.failure.told_last(context.history);
    let waiting = context.names.waiting.iter();
    let waiting: NumberSet<(u32, u32)> = waiting
        .filter_map(|call| Some((call.channel.try_into().ok()?, call.handle.try_into().ok()?)))
        .collect();
    let mut by_receiver: NumberMap<_, Lost> = NumberMap::new();
    for (index, windowed) in context.traffic.losses().iter().enumerate() {
        let loss = &windowed.loss;
        let key = (loss.channel, loss.receiver);
        let is_waited_for = waiting.contains(&key);
        let rank = rank(context, &told_last, loss, is_waited_for);
        let one = Lost {
            count: loss.lost,
            losses: 1,
            rank,
            told: *loss,
            index,
            latest: loss.from,
        };
        match by_receiver.get_mut(&key) {
            Some(lost) => lost.add(one),
            None => drop(by_receiver.insert(key, one)),
        }
    }
    let mut all: Vec<_> = by_receiver.into_values().listed();
    // The sort is stable: receivers that lost as many are in the order of channel and number.
    sort_by_key(&mut all, |lost| {
        (lost.rank, Reverse(lost.count), lost.told.from)
    });
    all
}

fn rank(context: &Context<'_>, told_last: &[u64], loss: &Loss, is_waited_for: bool) -> Rank {
    if let LossEnd::Told(place) = loss.end {
        if context.failure.last_call() == Some(place) {
            return Rank::LastCall;
        }
        return match told_last.iter().position(|last| *last == place) {
            Some(panic) => Rank::ToldLast(panic),
            None => Rank::Told(!context.failure.is_before_end(place), Reverse(place)),
        };
    }
    let receiver = context.history.channel(loss.channel).handle(loss.receiver);
    let was_used = receiver.is_some_and(|receiver| receiver.last_user.is_some());
    if was_used || is_waited_for {
        Rank::Untold
    } else {
        Rank::Held
    }
}

impl Lost {
    /// The number of the rule that orders it.
    pub(super) fn order(&self) -> u8 {
        self.rank.order()
    }

    /// Adds a loss of the same receiver. It is the one that is told if it comes first, or if
    /// neither was told and it is greater.
    fn add(&mut self, other: Lost) {
        self.count += other.count;
        self.losses += 1;
        self.latest = self.latest.max(other.latest);
        let is_greater = other.rank == self.rank && other.told.lost > self.told.lost;
        if other.rank < self.rank || is_greater {
            (self.rank, self.told, self.index) = (other.rank, other.told, other.index);
        }
    }
}

/// Puts the losses of a receiver into words.
pub(super) fn fact(context: &Context<'_>, lost: &Lost) -> Fact {
    let loss = &lost.told;
    let receiver = context.naming.receiver(loss.channel, loss.receiver);
    let values = context.traffic.lost(lost.index);
    let end = ToldEnd::of(context, loss);
    let members = members(context, lost, &receiver, end);
    let head = headline(context, lost, &receiver);
    let cause = cause(context, loss, &values, &receiver);
    let steps = vec![cause, end_step(context, lost, end)];
    Fact {
        last: Some(lost_line(context, loss, &values)),
        late: late(context, lost, &values, end),
        sights: match end {
            ToldEnd::Told(_) => vec![1, 0],
            _ => vec![0, 1],
        },
        ..Fact::new("loss", members, head, steps, look(context, loss, end))
    }
}

/// Whether a loss began in the lead, whose entries nobody has called.
fn began_in_lead(context: &Context<'_>, loss: &Loss) -> bool {
    loss.from <= context.history.lead
}

/// Says why the receiver was late. A window that begins behind the send doesn't have it.
fn late(context: &Context<'_>, lost: &Lost, values: &LostValues<'_>, end: ToldEnd) -> Vec<String> {
    let loss = &lost.told;
    if began_in_lead(context, loss) {
        return vec![];
    }
    let received = context.traffic.losses()[lost.index].received;
    let actor_of = |place: u64| u64::from(context.run.entry(place).actor);
    let mut waiting = context.names.waiting.iter();
    let waiting = waiting
        .find(|call| (call.channel, call.handle) == (loss.channel.into(), loss.receiver.into()));
    let (actor, told) = match (end, received, waiting) {
        (ToldEnd::Told(place), ..) => (Some(actor_of(place)), place),
        (_, 1.., _) => (Some(actor_of(received)), 0),
        (_, 0, waiting) => (waiting.map(|call| call.actor), 0),
    };
    let Some(actor) = actor else {
        return vec![];
    };
    let Spec::Broadcast(given) = context.run.specs()[loss.channel as usize] else {
        return vec![];
    };
    let unread = values.rest.first().map_or(0, |value| value.since);
    let late = Late {
        channel: loss.channel,
        receiver: loss.receiver,
        actor,
        received,
        told,
        since: unread.max(received),
        sent: loss.from,
        retained: given.next_power_of_two() as u64,
    };
    lateness::lines(context, &late)
}

/// Returns the call that is worth looking at: the cause, or where that was before the window, the
/// call that ended the loss, or else the first one.
fn look(context: &Context<'_>, loss: &Loss, end: ToldEnd) -> u64 {
    match end {
        _ if loss.from > context.history.lead => loss.from,
        ToldEnd::Told(place) | ToldEnd::Dropped(place) => place,
        ToldEnd::Failure(_) | ToldEnd::Open => context.history.first_place(),
    }
}

/// Returns the values that were lost, of which a window doesn't have those that were overwritten
/// before it.
fn lost_line(context: &Context<'_>, loss: &Loss, values: &LostValues<'_>) -> String {
    let before = match values.before {
        0 => String::new(),
        count => format!(
            "{}, overwritten before the window",
            visible::counted(count, "value")
        ),
    };
    let between = match (values.before, values.rest) {
        (0, _) | (_, []) => "",
        _ => "; ",
    };
    let rest = context.naming.values(loss.channel, values.rest);
    format!("  lost: {before}{between}{rest}")
}

fn members(
    context: &Context<'_>,
    lost: &Lost,
    receiver: &Called,
    end: ToldEnd,
) -> Vec<(&'static str, Json)> {
    let loss = &lost.told;
    let came = context.traffic.channel(loss.channel).came_to(loss.receiver);
    let mut members = vec![
        ("channel", Json::number(loss.channel)),
        ("receiver", Json::number(loss.receiver)),
        ("name", Json::text(&receiver.short)),
        ("lost", Json::number(lost.count)),
        ("of", Json::number(came.count)),
        ("losses", Json::number(lost.losses)),
        ("end", Json::text(end.word())),
    ];
    if came.is_most {
        members.push(("at_most", Json::Bool(true)));
    }
    members.push_all(idle(context, lost).map(|time| ("idle", Json::number(time))));
    members.push_all(received(context, lost).map(|call| ("received", call)));
    members
}

fn headline(context: &Context<'_>, lost: &Lost, receiver: &Called) -> String {
    let Loss {
        channel,
        receiver: number,
        lost: most,
        ..
    } = lost.told;
    let came = context.traffic.channel(channel).came_to(number);
    let at_most = if came.is_most { "at most " } else { "" };
    let which = match lost.rank {
        Rank::LastCall | Rank::ToldLast(_) if lost.latest > lost.told.from => {
            "the one told before the failure"
        }
        Rank::LastCall | Rank::ToldLast(_) | Rank::Told(..) => "the last",
        Rank::Untold | Rank::Held => "the worst",
    };
    let several = match lost.losses {
        1 => String::new(),
        losses => {
            let values = visible::counted(most, "value");
            format!(
                " in {} gaps; {which}, of {values}:",
                visible::number(losses)
            )
        }
    };
    format!(
        "{} lost {} of {at_most}{} of {} ({}){several}",
        receiver.full,
        lost.count,
        visible::counted(came.count, "value"),
        context.naming.channel(channel),
        capacity(context, channel),
    )
}

/// As `capacity 4`, and where it retains more, `capacity 3, which retains 4`.
pub(super) fn capacity(context: &Context<'_>, channel: u32) -> String {
    match context.run.specs()[channel as usize] {
        Spec::Broadcast(given) if given.is_power_of_two() => format!("capacity {given}"),
        Spec::Broadcast(given) => {
            let retained = given.next_power_of_two();
            format!("capacity {given}, which retains {retained}")
        }
        Spec::Watch(_) => unreachable!("a watch loses no values"),
    }
}

/// Returns the send that overwrote the first value. A window that begins behind it doesn't have it.
fn cause(
    context: &Context<'_>,
    loss: &Loss,
    values: &LostValues<'_>,
    receiver: &Called,
) -> FactStep {
    if began_in_lead(context, loss) {
        return context.step_before("the overwriting began".to_string());
    }
    let naming = context.naming;
    let entry = context.run.entry(loss.from);
    let sent = naming.value(loss.channel, entry.value.unwrap_or(0));
    let overwritten = naming.value(loss.channel, values.rest[0].value);
    let what = naming.method(loss.channel, &format!("send({sent})"));
    let short = &receiver.short;
    let said = format!("overwrote {overwritten}, which {short} had not read");
    context.step(loss.from, Role::Cause, what, said)
}

/// Returns how the loss ended, with the last value that the receiver received.
fn end_step(context: &Context<'_>, lost: &Lost, end: ToldEnd) -> FactStep {
    let what = |said: &str| match lost.rank {
        Rank::Held if is_older(context, lost) => "held, not read in the window".to_string(),
        Rank::Held => "held, never read".to_string(),
        _ => said.to_string(),
    };
    let last = match lost.rank {
        Rank::Held => String::new(),
        _ => last_receive(context, lost),
    };
    match end {
        ToldEnd::Told(place) => {
            let what = format!("told: lagged {}", lost.told.lost);
            context.step(place, Role::Told, what, last)
        }
        ToldEnd::Dropped(place) => {
            context.step(place, Role::Dropped, what("dropped: never told"), last)
        }
        ToldEnd::Failure(failure) => context.failure_step(failure, what("not told"), last),
        ToldEnd::Open => context.end_step(what("not told"), last),
    }
}

/// Whether the receiver was there before the window.
fn is_older(context: &Context<'_>, lost: &Lost) -> bool {
    let channel = context.traffic.channel(lost.told.channel);
    channel.is_older(lost.told.receiver)
}

/// Says which value the receiver received last. It receives none while it lags.
fn last_receive(context: &Context<'_>, lost: &Lost) -> String {
    let place = context.traffic.losses()[lost.index].received;
    if place == 0 {
        let before = if is_older(context, lost) {
            "in the window"
        } else {
            "before"
        };
        return format!("its last receive: none {before}");
    }
    let value = context.naming.returned(&context.run.entry(place));
    let before = idle(context, lost).map_or(String::new(), |time| {
        format!(", {} before the loss", visible::duration(time))
    });
    format!(
        "its last receive: {}, {value}{before}",
        context.call_in_snapshots(place)
    )
}

/// Returns the receiver's last receive in a dump, as the number that snapshots have for it tells.
fn received(context: &Context<'_>, lost: &Lost) -> Option<Json> {
    let place = context.traffic.losses()[lost.index].received;
    if place <= context.history.lead {
        return None;
    }
    let stamp = number_in_snapshots(context.names, context.run.entry(place).stamp)?;
    let mut members = vec![
        ("place", Json::number(place)),
        ("stamp", Json::number(stamp)),
    ];
    let time = context.times.at(stamp);
    members.push_all(time.map(|time| ("time", Json::text(&time.iso()))));
    Some(Json::object(members))
}

/// Returns how many microseconds the receiver's last receive was before the send that overwrote the
/// first value, where the run has a clock.
fn idle(context: &Context<'_>, lost: &Lost) -> Option<u64> {
    let received = context.traffic.losses()[lost.index].received;
    let lead = context.history.lead;
    if received <= lead || lost.told.from <= lead {
        return None;
    }
    let time_of = |place| context.times.at(context.run.entry(place).stamp);
    Some(time_of(received)?.until(&time_of(lost.told.from)?))
}
