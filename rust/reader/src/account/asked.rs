//! What the last call of who failed asked: whether a watch has changed, how many values are left,
//! or how many receivers there are. It is said what made the answer so.

use super::Context;
use super::fact::{Fact, Role};
use super::finding::orders;
use super::losses::capacity;
use super::marking::Marking;
use super::nothing_came::NothingCame;
use super::reading::{self, ReadUpTo};
use yovanelum_record::journal::RunEntry;
use yovanelum_record::listed::{IntoList, PushAll};
use yovanelum_record::operation::Operation;
use yovanelum_record::reply::Reply;
use yovanelum_record::sidecar::Json;
use yovanelum_record::sorting::sort_by_key;
use yovanelum_record::visible;

/// How many receivers are named.
const NAMED: usize = 2;

/// A call that asked, by its place, and whether its answer may be why the test failed.
pub(super) struct Answered {
    place: u64,
    is_why: bool,
}

/// What made an answer so, with the calls that show it.
struct Because {
    text: String,
    calls: Vec<(u64, Role, &'static str)>,
}

/// Returns the last call of who failed, if it asked something, or sent a value to some receivers.
pub(super) fn found(context: &Context<'_>) -> Option<Answered> {
    let failure = context.failure;
    let named = failure.last_call().filter(|_| failure.names_last_call());
    let is_why = named.is_some();
    let place = named.or(failure.other_last_call())?;
    let entry = context.run.entry(place);
    let is_answered = match entry.word {
        Operation::HasChanged => matches!(entry.reply, Reply::Flag(_)),
        Operation::ReceiverLen | Operation::SenderLen | Operation::ReceiverCount => {
            matches!(entry.reply, Reply::Count(_))
        }
        // It had more receivers before.
        Operation::Send => {
            let dropped = || reading::last_drop(context, entry.channel, place);
            matches!(entry.reply, Reply::Sent(_)) && dropped().is_some()
        }
        _ => false,
    };
    is_answered.then_some(Answered { place, is_why })
}

impl Answered {
    /// The number of the rule that orders it.
    pub(super) fn order(&self) -> u8 {
        if self.is_why {
            orders::LAST_VALUE
        } else {
            orders::OTHER_VALUE
        }
    }

    /// Whether it tells that this receiver has not marked a change.
    pub(super) fn tells_of(&self, context: &Context<'_>, receiver: (u32, u32)) -> bool {
        let entry = context.run.entry(self.place);
        self.is_why
            && entry.word == Operation::HasChanged
            && (entry.channel, entry.handle) == receiver
    }
}

/// Puts it into words.
pub(super) fn fact(context: &Context<'_>, Answered { place, .. }: &Answered) -> Fact {
    let entry = context.run.entry(*place);
    let because = match entry.word {
        Operation::HasChanged => has_changed(context, *place, &entry),
        Operation::ReceiverLen => receiver_len(context, *place, &entry),
        Operation::SenderLen => sender_len(context, *place, &entry),
        _ => receiver_count(context, *place, &entry),
    };
    let lead = context.history.lead;
    let calls = because.calls.into_iter().filter(|(at, ..)| *at > lead);
    let steps = calls.map(|(at, role, said)| context.call_step(at, role, said.to_string()));
    let mut steps: Vec<_> = steps.listed();
    let returned = format!("returned {}", context.naming.reply(&entry));
    steps.push(context.call_step(*place, Role::Told, returned));
    let mut members = vec![
        ("channel", Json::number(entry.channel)),
        ("handle", Json::number(entry.handle)),
    ];
    members.push_all(entry.reply.number().map(|it| ("answer", Json::number(it))));
    Fact::new("asked", members, because.text, steps, *place)
}

/// A receiver of a watch has marked the last change, or hasn't.
fn has_changed(context: &Context<'_>, place: u64, entry: &RunEntry) -> Because {
    let naming = context.naming;
    let receiver = naming.receiver(entry.channel, entry.handle).full;
    let channel = naming.channel(entry.channel);
    let marking = Marking::of(context, entry.channel, place);
    let seen = marking.seen(entry.handle);
    let by = |change: u64| {
        let who = naming.actor(context.run.entry(change).actor.into());
        format!("which {who} made ({})", visible::call(change))
    };
    let change = (marking.last_change(), Role::Sent, "the last change");
    if entry.reply == Reply::Flag(1) {
        let unmarked = marking.unmarked(entry.handle);
        if unmarked == 0 {
            let unmark = (seen.unmark, Role::Begin, "marked it as changed");
            let at = visible::call(seen.unmark);
            return Because {
                text: format!("{receiver} was marked as changed ({at})"),
                calls: vec![unmark],
            };
        }
        let text = format!(
            "{receiver} has not marked the last change of {channel}, {}",
            by(unmarked)
        );
        return match seen.look {
            0 => Because {
                text,
                calls: vec![change],
            },
            look => Because {
                text: format!(
                    "{text}: it looked at it ({}), which marks nothing",
                    visible::call(look)
                ),
                calls: vec![
                    change,
                    (look, Role::Look, "looked at it, and marked nothing"),
                ],
            },
        };
    }
    if seen.mark > marking.last_change() && marking.last_change() > 0 {
        let method = naming
            .word(seen.mark, &context.run.entry(seen.mark))
            .method();
        return Because {
            text: format!(
                "{receiver} has marked the last change of {channel}, {}, by `{method}` ({})",
                by(marking.last_change()),
                visible::call(seen.mark)
            ),
            calls: vec![change, (seen.mark, Role::Look, "marked it as seen")],
        };
    }
    nothing_new(context, place, entry)
}

/// Nothing came for a receiver.
fn nothing_new(context: &Context<'_>, place: u64, entry: &RunEntry) -> Because {
    let receiver = context.naming.receiver(entry.channel, entry.handle).full;
    let why = NothingCame::of(context, (entry.channel, entry.handle), place);
    Because {
        text: format!("{receiver} has nothing new: {}", why.text(context)),
        calls: why.calls(),
    }
}

/// A receiver of a broadcast has a given number of values left.
fn receiver_len(context: &Context<'_>, place: u64, entry: &RunEntry) -> Because {
    let naming = context.naming;
    let reading = ReadUpTo::of(context, entry.channel, place);
    let [first, ..] = *reading.unread(entry.handle) else {
        return nothing_new(context, place, entry);
    };
    let receiver = naming.receiver(entry.channel, entry.handle).full;
    let count = reading.unread(entry.handle).len() as u64;
    let last = reading.last_receive(entry.handle);
    let after = match last {
        0 => "it received nothing before".to_string(),
        last => format!("its last receive was {}", visible::call(last)),
    };
    Because {
        text: format!(
            "{receiver} has {} of {} left, from {} on: {after}",
            visible::values(count),
            naming.channel(entry.channel),
            naming.value(entry.channel, context.run.entry(first).value.unwrap_or(0)),
        ),
        calls: in_order(vec![
            (last, Role::Look, "its last receive"),
            (first, Role::Sent, "the first that it has not received"),
        ]),
    }
}

fn in_order(mut calls: Vec<(u64, Role, &'static str)>) -> Vec<(u64, Role, &'static str)> {
    sort_by_key(&mut calls, |(place, ..)| *place);
    calls
}

/// A broadcast retains values that a receiver hasn't received.
fn sender_len(context: &Context<'_>, place: u64, entry: &RunEntry) -> Because {
    let naming = context.naming;
    let reading = ReadUpTo::of(context, entry.channel, place);
    let channel = naming.channel(entry.channel);
    let receivers = reading::receivers_at(context, entry.channel, place);
    let slowest = receivers.iter().max_by_key(|it| reading.unread(**it).len());
    let slowest = slowest.filter(|it| !reading.unread(**it).is_empty());
    let (Some(slowest), Reply::Count(count)) = (slowest, entry.reply) else {
        return Because {
            text: format!("{channel} has no value that a receiver has not received"),
            calls: vec![],
        };
    };
    let unread = reading.unread(*slowest);
    // It has received none of them, so those that aren't left were overwritten.
    let overwritten = (unread.len() as u64).saturating_sub(count);
    let first = match overwritten {
        0 => "the first that it has not received",
        _ => "the first that is left",
    };
    let last = (
        reading.last_receive(*slowest),
        Role::Look,
        "its last receive",
    );
    let left = unread.get(overwritten as usize);
    let mut calls = vec![last];
    calls.push_all(left.map(|place| (*place, Role::Sent, first)));
    Because {
        text: format!(
            "{channel} has {} left that {} has not received{}",
            visible::values(count),
            naming.receiver(entry.channel, *slowest).full,
            overwritten_before(context, entry.channel, overwritten),
        ),
        calls: in_order(calls),
    }
}

/// As `; three values before that were overwritten (capacity 1)`, or an empty text.
fn overwritten_before(context: &Context<'_>, channel: u32, count: u64) -> String {
    let were = match count {
        0 => return String::new(),
        1 => "was",
        _ => "were",
    };
    let values = visible::values(count);
    let capacity = capacity(context, channel);
    format!("; {values} before that {were} overwritten ({capacity})")
}

/// A channel has a given number of receivers, or a send reached a given number of them.
fn receiver_count(context: &Context<'_>, place: u64, entry: &RunEntry) -> Because {
    let naming = context.naming;
    let full = |receiver: u32| naming.receiver(entry.channel, receiver).full;
    let receivers = reading::receivers_at(context, entry.channel, place);
    let names: Vec<_> = receivers.iter().map(|it| full(*it)).listed();
    let names = match names.as_slice() {
        [] => String::new(),
        names => format!(": {}", visible::first(names, NAMED, ", ")),
    };
    let dropped = reading::last_drop(context, entry.channel, place);
    let before = dropped.map_or(String::new(), |dropped| {
        let name = full(context.run.entry(dropped).handle);
        format!("; {name} was dropped before ({})", visible::call(dropped))
    });
    let channel = naming.channel(entry.channel);
    let has = match entry.word {
        Operation::Send => format!("a send of {channel} reached"),
        _ => format!("{channel} has"),
    };
    Because {
        text: format!(
            "{has} {}{names}{before}",
            visible::receivers(receivers.len() as u64),
        ),
        calls: Vec::from_iter(dropped.map(|it| (it, Role::Close, "the last drop of a receiver"))),
    }
}

#[cfg(test)]
mod tests {
    use crate::account::tests::{account, assert_told};

    /// What the account says first of a test that fails at `len()` of a sender, after these sends
    /// to a receiver that reads none of them.
    fn assert_left(capacity: u64, sends: usize, count: u64, head: &str, left: u64, said: &str) {
        let mut entries: Vec<_> = (0..sends)
            .map(|it| format!("0 0 send 0 {it} = sent 1"))
            .collect();
        entries.push(format!("0 0 sender-len 0 = count {count}"));
        let entries: Vec<_> = entries.iter().map(String::as_str).collect();
        let (asked, nulls) = (entries.len(), "null, ".repeat(sends));
        let names = format!(
            r#"{{"locations": [["a.rs", 7, 1]], "calls": {{"0": [{nulls}0]}}, "channels": {{"0": "bus"}},
            "handles": {{"0": {{"1": "idle"}}}}, "panics": [{{"text": "", "location": 0, "actor": 0, "since": {asked}}}]}}"#
        );
        let found = account(&[&format!("broadcast {capacity}")], &entries, &names);
        let others = found.facts[1..].iter().map(|fact| fact.head.clone());
        let heads: Vec<_> = [head.to_string()].into_iter().chain(others).collect();
        let heads: Vec<_> = heads.iter().map(String::as_str).collect();
        let value = left - 1;
        let below = [
            format!("  call {left}   bus.send(value {value})   actor 0           {said}"),
            format!("  call {asked}   bus.len()           actor 0  a.rs:7   returned {count}"),
        ];
        let below: Vec<_> = below.iter().map(String::as_str).collect();
        assert_told(&found, &heads, 0, &below);
    }

    #[test]
    fn values_that_were_overwritten_are_not_left() {
        let first = "the first that it has not received";
        let head = "`bus` has two values left that `idle` has not received";
        assert_left(4, 2, 2, head, 1, first);
        let left = "the first that is left";
        let head = "`bus` has one value left that `idle` has not received; three values before that were overwritten (capacity 1)";
        assert_left(1, 4, 1, head, 4, left);
        let head = "`bus` has four values left that `idle` has not received; one value before that was overwritten (capacity 3, which retains 4)";
        assert_left(3, 5, 4, head, 2, left);
    }
}
