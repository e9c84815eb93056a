//! The value that the last call of who failed returned: who sent it, and where that explains it,
//! why it was this one.

use super::Context;
use super::fact::{Fact, Role};
use super::marking::Marking;
use super::reading::{self, ReadUpTo};
use super::silence::last_sent;
use yovanelum_record::journal::{RunEntry, Spec};
use yovanelum_record::listed::{IntoList, PushAll};
use yovanelum_record::operation::Operation;
use yovanelum_record::reply::Reply;
use yovanelum_record::sidecar::Json;
use yovanelum_record::visible;

/// What is said of the last value of a watch.
const UNCHANGED: &str = ": it was not changed since";

/// Why a call returned this value and no other, with the calls that show it.
#[derive(Default)]
struct WhyThis {
    text: String,
    before_send: Vec<(u64, Role, &'static str)>,
    behind_send: Vec<(u64, Role, &'static str)>,
}

/// Puts the value into words.
pub(super) fn fact(context: &Context<'_>, place: u64) -> Fact {
    let naming = context.naming;
    let entry = context.run.entry(place);
    let Reply::Value(value) = entry.reply else {
        unreachable!("it is the call that returned a value");
    };
    let is_receiver = context
        .history
        .channel(entry.channel)
        .is_receiver(entry.handle);
    let sent = sent_at(context, entry.channel, (value, place));
    let by = match sent {
        Some(sent) => {
            let by = naming.actor(context.run.entry(sent).actor.into());
            format!("which {by} sent ({})", visible::call(sent))
        }
        None => "with which it was created".to_string(),
    };
    let why = why_this(context, place, &entry, sent);
    let returned = format!("returned {}", naming.reply(&entry));
    let of_sent = sent.map(|sent| (sent, Role::Sent, "sent it"));
    let mut calls = why.before_send;
    calls.push_all(of_sent);
    calls.push_all(why.behind_send);
    let calls = calls.into_iter();
    let steps = calls.map(|(place, role, said)| context.call_step(place, role, said.to_string()));
    let mut steps: Vec<_> = steps.listed();
    let sent_step = steps.iter().rposition(|step| step.role == Role::Sent);
    steps.push(context.call_step(place, Role::Told, returned));
    // The sender of a watch looks at its value, too.
    let (of, full, short) = if is_receiver {
        let called = naming.receiver(entry.channel, entry.handle);
        ("receiver", called.full, called.short)
    } else {
        let called = naming.handle(entry.channel, entry.handle);
        ("handle", called.clone(), called)
    };
    let members = vec![
        ("channel", Json::number(entry.channel)),
        (of, Json::number(entry.handle)),
        ("name", Json::text(&short)),
        ("value", Json::number(value)),
    ];
    let head = format!(
        "{full} got {} of {}, {by}{}",
        naming.reply(&entry),
        naming.channel(entry.channel),
        why.text,
    );
    let mut sights = vec![steps.len() - 1];
    sights.push_all(sent_step);
    Fact {
        sights,
        ..Fact::new("value", members, head, steps, place)
    }
}

/// Whether more is known of the value that a call returned than who sent it: why it was this one.
pub(super) fn is_explained(context: &Context<'_>, place: u64) -> bool {
    let entry = context.run.entry(place);
    let Reply::Value(value) = entry.reply else {
        return false;
    };
    let sent = sent_at(context, entry.channel, (value, place));
    let why = why_this(context, place, &entry, sent);
    !why.text.is_empty() && why.text != UNCHANGED
}

/// Says why a call returned this value, as far as that is known.
fn why_this(context: &Context<'_>, place: u64, entry: &RunEntry, sent: Option<u64>) -> WhyThis {
    match context.run.specs()[entry.channel as usize] {
        Spec::Watch(_) => why_of_watch(context, place, entry, sent),
        Spec::Broadcast(capacity) => why_of_broadcast(context, place, entry, capacity.into()),
    }
}

/// Returns the place of the send of a value that a call returned.
fn sent_at(context: &Context<'_>, channel: u32, (value, returned): (u64, u64)) -> Option<u64> {
    let mut places = (context.history.lead + 1..returned).rev();
    places.find(|place| {
        let entry = context.run.entry(*place);
        entry.channel == channel && entry.value == Some(value)
    })
}

/// Of a watch: nobody has changed it since, and `changed` may have told of a value once more that
/// was looked at before, or marked as changed.
fn why_of_watch(context: &Context<'_>, place: u64, entry: &RunEntry, sent: Option<u64>) -> WhyThis {
    let last = last_sent(context, entry.channel, place);
    if last != sent.unwrap_or(0) {
        return WhyThis::default();
    }
    let told = told_again(context, place, entry);
    let told = told.filter(|it| sent.is_some() || it.is_unmarked);
    told.map_or_else(
        || WhyThis {
            text: UNCHANGED.to_string(),
            ..WhyThis::default()
        },
        |told| told.why(&context.naming.receiver(entry.channel, entry.handle).short),
    )
}

/// A `changed` that returned for a change which the receiver knew, and is its last mark.
struct ToldAgain {
    /// The place of the look at the change, or of the `mark_changed`.
    before: u64,
    changed: u64,
    /// Whether the receiver was marked as changed.
    is_unmarked: bool,
}

impl ToldAgain {
    /// Says why the receiver of this name got what it knew.
    fn why(&self, name: &str) -> WhyThis {
        let (before, changed) = (visible::call(self.before), visible::call(self.changed));
        let (text, before_it, again) = if self.is_unmarked {
            (
                format!(
                    ": {name} was marked as changed ({before}), so `changed` returned without a change ({changed})"
                ),
                (Role::Mark, "marked it as changed"),
                "returned without a change",
            )
        } else {
            (
                format!(
                    ": {name} had looked at it ({before}), which marks nothing, so `changed` returned again ({changed})"
                ),
                (Role::Look, "looked at it, and marked nothing"),
                "returned for the same change",
            )
        };
        WhyThis {
            text,
            before_send: vec![],
            behind_send: vec![
                (self.before, before_it.0, before_it.1),
                (self.changed, Role::Told, again),
            ],
        }
    }
}

/// Returns the `changed` that told of the last change again, if it is the receiver's last mark
/// before this place.
fn told_again(context: &Context<'_>, place: u64, entry: &RunEntry) -> Option<ToldAgain> {
    let until = Marking::of(context, entry.channel, place - 1);
    let changed = until.seen(entry.handle).mark;
    if changed <= context.history.lead || context.run.entry(changed).word != Operation::Changed {
        return None;
    }
    let before = Marking::of(context, entry.channel, changed - 1);
    let seen = before.seen(entry.handle);
    let is_unmarked = before.unmarked(entry.handle) == 0;
    let before_it = if is_unmarked { seen.unmark } else { seen.look };
    (before_it > before.last_change().max(context.history.lead)).then_some(ToldAgain {
        before: before_it,
        changed,
        is_unmarked,
    })
}

/// Of a broadcast: the receiver was created behind other values, or the capacity was rounded up.
fn why_of_broadcast(context: &Context<'_>, place: u64, entry: &RunEntry, capacity: u64) -> WhyThis {
    let receiver = (entry.channel, entry.handle);
    if let Some(skipped) = reading::skipped(context, receiver, place) {
        return WhyThis {
            text: format!("; {}", skipped.text(context, entry.channel)),
            before_send: vec![(skipped.place, Role::Begin, "skipped what was not read")],
            behind_send: vec![],
        };
    }
    if let Some(early) = early(context, receiver, place) {
        let made = context.history.channel(receiver.0).handle(receiver.1);
        let made = made.map_or(0, |handle| handle.made);
        let name = context.naming.receiver(receiver.0, receiver.1).short;
        let value = context.run.entry(early).value.unwrap_or(0);
        let value = context.naming.value(receiver.0, value);
        return WhyThis {
            text: format!(
                "; {name} was created after {value} was sent ({})",
                visible::call(early)
            ),
            before_send: vec![
                (early, Role::Look, "came before it was created"),
                (made, Role::Begin, "created it"),
            ],
            behind_send: vec![],
        };
    }
    let unread = ReadUpTo::of(context, entry.channel, place - 1)
        .unread(entry.handle)
        .len() as u64;
    let retained = capacity.next_power_of_two();
    if unread <= capacity || retained == capacity {
        return WhyThis::default();
    }
    WhyThis {
        text: format!(
            ": capacity {capacity} is rounded up to {retained}, so it was still retained"
        ),
        ..WhyThis::default()
    }
}

/// Returns the last send before a receiver was created, if the call at this place is its first that
/// returned something.
fn early(context: &Context<'_>, receiver: (u32, u32), place: u64) -> Option<u64> {
    let made = context.history.channel(receiver.0).handle(receiver.1)?.made;
    if made <= context.history.lead || !reading::is_new(context, receiver, place) {
        return None;
    }
    let sent = last_sent(context, receiver.0, made - 1);
    (sent > context.history.lead).then_some(sent)
}

#[cfg(test)]
mod tests {
    use crate::account::tests::{account, assert_told};

    /// Names of a run whose actor 0 looks last at `a.rs:7`, and fails there.
    fn names(calls: &str, since: usize) -> String {
        format!(
            r#"{{"locations": [["a.rs", 7, 1]], "calls": {{"0": [{calls}]}}, "channels": {{"0": "limit"}}, "handles": {{"0": {{"1": "seen"}}}},
            "values": {{"0": {{"0": "10", "1": "20"}}}}, "panics": [{{"text": "", "location": 0, "actor": 0, "since": {since}}}]}}"#
        )
    }

    #[test]
    fn a_mark_as_changed_is_why_changed_returned_without_a_change() {
        let entries = [
            "0 0 send 0 1 = stored",
            "0 0 update 1 = value 1",
            "0 0 mark-changed 1 = done",
            "0 0 changed 1 = done",
            "0 0 borrow 1 = value 1",
        ];
        let names_of_five = names("null, null, null, null, 0", 5);
        let found = account(&["watch 0"], &entries, &names_of_five);
        let head = "`seen` got \"20\" of `limit`, which actor 0 sent (call 1): seen was marked as changed (call 3), so `changed` returned without a change (call 4)";
        let below = [
            "  call 1   limit.send(\"20\")       actor 0           sent it",
            "  call 3   limit.mark_changed()   actor 0           marked it as changed",
            "  call 4   limit.changed()        actor 0           returned without a change",
            "  call 5   limit.borrow()         actor 0  a.rs:7   returned \"20\"",
        ];
        assert_told(&found, &[head], 0, &below);
        // The first value is no change either.
        let entries = [
            "0 0 mark-changed 1 = done",
            "0 0 changed 1 = done",
            "0 0 borrow 1 = value 0",
        ];
        let found = account(&["watch 0"], &entries, &names("null, null, 0", 3));
        let head = "`seen` got \"10\" of `limit`, with which it was created: seen was marked as changed (call 1), so `changed` returned without a change (call 2)";
        assert_eq!(found.facts[0].head, head);
    }

    #[test]
    fn a_sender_that_looked_is_called_one() {
        let entries = ["0 0 send 0 1 = stored", "0 0 borrow 0 = value 1"];
        let found = account(&["watch 0"], &entries, &names("null, 0", 2));
        let head =
            "sender 0 got \"20\" of `limit`, which actor 0 sent (call 1): it was not changed since";
        assert_eq!(found.facts[0].head, head);
        let json = found.to_json();
        assert!(
            json.contains(r#""channel": 0, "handle": 0, "name": "sender 0", "value": 1"#),
            "{json}"
        );
    }
}
