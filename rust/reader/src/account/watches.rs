//! The changes of watches that a receiver never learned of, never marked as seen, or marked without
//! a look.
//!
//! It learns of a change by a look, by a mark, and where a call says that there is one. A look and
//! a mark are two facts: `borrow` looks and marks nothing, `changed` marks and looks at nothing,
//! and `borrow_and_update` does both. `mark_unchanged` marks a change that it tells nobody of.

use super::Context;
use super::fact::{Fact, FactStep, Role};
use super::finding::orders;
use super::history::HandleHistory;
use super::lateness::{self, Late};
use std::cmp::Reverse;
use yovanelum_record::journal::{Counts, Totals};
use yovanelum_record::listed::{IntoList, Keep, PushAll};
use yovanelum_record::sidecar::Json;
use yovanelum_record::sorting::sort_by_key;
use yovanelum_record::visible;

/// What is said of a call that marked a change as seen, where the receiver never looked at it.
pub(super) const UNSEEN: &str = "marked it as seen without a look";

/// What a receiver never did with some of the changes that came to it.
#[derive(Clone, Copy, Debug, PartialEq, Eq)]
pub(super) enum Unreceived {
    Learned,
    /// It looked at them, or learned of them otherwise, but for the mark.
    Looked,
    Marked,
}

/// A receiver that never learned of some of the changes, never looked at them, or never marked
/// them.
pub(super) struct Overlooked {
    pub(super) what: Unreceived,
    pub(super) count: u64,
    channel: u32,
    receiver: u32,
    // The place of its last look, or 0.
    look: u64,
    use_of_it: Use,
}

/// What became of a receiver.
#[derive(Clone, Copy, Debug, PartialEq, Eq, PartialOrd, Ord)]
enum Use {
    /// It was used, and was still there where the test failed.
    Current,
    /// It was used, and dropped before.
    Ended,
    Never,
}

impl Overlooked {
    /// The channel and the receiver.
    pub(super) fn receiver(&self) -> (u32, u32) {
        (self.channel, self.receiver)
    }

    /// The number of the rule that orders it.
    pub(super) fn order(&self) -> u8 {
        match self.what {
            _ if self.use_of_it != Use::Current => orders::UNUSED,
            Unreceived::Learned | Unreceived::Looked => orders::UNLEARNED,
            Unreceived::Marked => orders::UNMARKED,
        }
    }
}

/// Returns the receivers that never learned of some changes, or marked them without a look, and
/// then those that never marked some.
pub(super) fn found(context: &Context<'_>) -> Vec<Overlooked> {
    let findings = context.findings;
    let totals = || findings.totals().iter().zip(findings.receipts());
    let learned = totals().filter_map(|totals| unlearned(context, totals));
    let looked = totals().filter_map(|totals| unlooked(context, totals));
    let mut learned: Vec<_> = learned.chain(looked).listed();
    // The sorts are stable: others are in the order of channel and number.
    sort_by_key(&mut learned, |it| (it.use_of_it, Reverse(it.count)));
    let marked = totals().filter_map(|totals| unmarked(context, totals));
    let mut marked: Vec<_> = marked.listed();
    sort_by_key(&mut marked, |it| Reverse(it.count));
    learned.push_all(marked);
    learned
}

/// Returns what became of a receiver.
fn use_of(context: &Context<'_>, receiver: &HandleHistory) -> Use {
    match receiver.last_user {
        None => Use::Never,
        Some(_) => use_of_used(context, receiver),
    }
}

/// The same of one that was used.
fn use_of_used(context: &Context<'_>, receiver: &HandleHistory) -> Use {
    let dropped = receiver.dropped.map(|(place, _)| place);
    if dropped.is_none_or(|place| !context.failure.is_before_end(place)) {
        Use::Current
    } else {
        Use::Ended
    }
}

/// How many changes a receiver missed, and how many it never looked at. Those of a lead are none.
fn counts(context: &Context<'_>, totals: &Totals) -> Option<[u64; 2]> {
    let Counts::Watch(counts) = totals.counts else {
        return None;
    };
    let Totals {
        channel, receiver, ..
    } = *totals;
    let came = context.traffic.channel(channel).came_in_lead(receiver);
    let handle = context.history.channel(channel).handle(receiver)?;
    let all_but = |is_one| came.saturating_sub(u64::from(is_one));
    Some([
        counts.missed - all_but(handle.marked_first),
        counts.unlooked - all_but(handle.looked_first),
    ])
}

/// Returns the receiver if it never learned of some changes.
fn unlearned(context: &Context<'_>, (totals, look): (&Totals, &u64)) -> Option<Overlooked> {
    let Totals {
        channel, receiver, ..
    } = *totals;
    // What it looked at or marked, it has learned of.
    let [missed, unlooked] = counts(context, totals)?;
    let handle = context.history.channel(channel).handle(receiver)?;
    let came = context.traffic.channel(channel).came_to(receiver).count;
    let count = came
        .saturating_sub(handle.learned)
        .min(missed)
        .min(unlooked);
    (count > 0).then_some(Overlooked {
        what: Unreceived::Learned,
        count,
        channel,
        receiver,
        look: *look,
        use_of_it: use_of(context, handle),
    })
}

/// Returns the receiver if it marked some changes as seen that it never looked at.
fn unlooked(context: &Context<'_>, (totals, look): (&Totals, &u64)) -> Option<Overlooked> {
    let Totals {
        channel, receiver, ..
    } = *totals;
    let handle = context.history.channel(channel).handle(receiver)?;
    let count = handle.dismissed.count;
    (count > 0).then_some(Overlooked {
        what: Unreceived::Looked,
        count,
        channel,
        receiver,
        look: *look,
        use_of_it: use_of_used(context, handle),
    })
}

/// Returns the receiver if it asked for new versions, and looked at some that it never marked:
/// `changed` tells of them once more.
fn unmarked(context: &Context<'_>, (totals, look): (&Totals, &u64)) -> Option<Overlooked> {
    let [missed, unlooked] = counts(context, totals)?;
    let Totals {
        channel, receiver, ..
    } = *totals;
    let handle = context.history.channel(channel).handle(receiver)?;
    (handle.awaits && missed > unlooked).then_some(Overlooked {
        what: Unreceived::Marked,
        count: missed,
        channel,
        receiver,
        look: *look,
        use_of_it: use_of(context, handle),
    })
}

/// Puts what a receiver never learned of, looked at or marked into words.
pub(super) fn fact(context: &Context<'_>, overlooked: &Overlooked) -> Fact {
    let Overlooked {
        what,
        count,
        channel,
        receiver,
        ..
    } = *overlooked;
    let called = context.naming.receiver(channel, receiver);
    let traffic = context.traffic.channel(channel);
    let came = traffic.came_to(receiver).count;
    let of = visible::counted(came, "change");
    let changes = format!("{count} of {of} of {}", context.naming.channel(channel));
    let here = if traffic.is_older(receiver) {
        " in the window"
    } else {
        ""
    };
    let (kind, said) = match what {
        Unreceived::Learned => {
            let said = format!("never learned of {changes}{here}");
            ("unlearned", said)
        }
        Unreceived::Looked => {
            let said = format!("marked {changes} as seen without a look{here}");
            ("unlooked", said)
        }
        Unreceived::Marked => {
            let said = format!("never marked {changes} as seen{here}");
            ("unmarked", said)
        }
    };
    let steps = steps(context, overlooked);
    let mut sights: Vec<_> = (0..steps.len()).listed();
    let most = match what {
        Unreceived::Looked => Role::Mark,
        _ => Role::Change,
    };
    sort_by_key(&mut sights, |index| steps[*index].role != most);
    let members = vec![
        ("channel", Json::number(channel)),
        ("receiver", Json::number(receiver)),
        ("name", Json::text(&called.short)),
        ("changes", Json::number(count)),
        ("of", Json::number(came)),
    ];
    let head = format!("{} {said}", called.full);
    let look = sights.first().map_or(0, |first| steps[*first].place);
    Fact {
        sights,
        late: late(context, overlooked),
        ..Fact::new(kind, members, head, steps, look)
    }
}

/// Says why a receiver hadn't learned of the last change when that came, or where it did, why it
/// looked only after the one before it was replaced.
fn late(context: &Context<'_>, overlooked: &Overlooked) -> Vec<String> {
    let Overlooked {
        channel,
        receiver,
        look,
        ..
    } = *overlooked;
    let change = context.traffic.channel(channel).last_came_to(receiver);
    let change = change.map_or(0, |value| value.since);
    let user = context.history.channel(channel).handle(receiver);
    let user = user.and_then(|handle| handle.last_user);
    let Some(user) = user.filter(|_| overlooked.what == Unreceived::Learned) else {
        return vec![];
    };
    let skipped = context.lateness.skipped(channel, receiver);
    let (received, since, sent) = match skipped {
        _ if change > look => (look, change, change),
        Some(skipped) => (skipped.before, skipped.first, skipped.last),
        None => return vec![],
    };
    if since <= context.history.lead {
        return vec![];
    }
    let late = Late {
        channel,
        receiver,
        actor: user.into(),
        received,
        told: 0,
        since,
        sent,
        retained: 1,
    };
    lateness::lines(context, &late)
}

/// Returns the last change that came to a receiver, and its last look if it ever looked, in their
/// order. Of changes that it marked without a look, the last of them and its mark.
fn steps(context: &Context<'_>, overlooked: &Overlooked) -> Vec<FactStep> {
    if overlooked.what == Unreceived::Looked {
        return steps_of_mark(context, overlooked);
    }
    let traffic = context.traffic.channel(overlooked.channel);
    let change = traffic.last_came_to(overlooked.receiver);
    let change = change.map(|value| (value.since, Role::Change));
    let mut known = change.into_iter().listed();
    known.push((overlooked.look, Role::Look));
    known.keep(|(place, _)| *place > context.history.lead);
    sort_by_key(&mut known, |(place, _)| *place);
    let steps = known.iter();
    steps
        .map(|(place, role)| step(context, *place, *role))
        .listed()
}

/// Returns the last change that a receiver marked without a look, and the call that did.
fn steps_of_mark(context: &Context<'_>, overlooked: &Overlooked) -> Vec<FactStep> {
    let Overlooked {
        channel,
        receiver,
        count,
        ..
    } = *overlooked;
    let handle = context.history.channel(channel).handle(receiver);
    let Some(last) = handle.and_then(|handle| handle.dismissed.last) else {
        return vec![];
    };
    let said = match count {
        1 => "the change",
        _ => "the last of these changes",
    };
    vec![
        context.call_step(last.change, Role::Change, said.to_string()),
        context.call_step(last.mark, Role::Mark, UNSEEN.to_string()),
    ]
}

/// Returns a call with its value, and what it was to the receiver.
fn step(context: &Context<'_>, place: u64, role: Role) -> FactStep {
    let naming = context.naming;
    let entry = context.run.entry(place);
    let value = entry.value.map(|value| naming.value(entry.channel, value));
    let method = context.naming.word(place, &entry).method();
    let what = format!("{method}({})", value.unwrap_or_default());
    let said = match role {
        Role::Look => format!("its last look: {}", naming.returned(&entry)),
        _ => role.sentence().to_string(),
    };
    context.step(place, role, naming.method(entry.channel, &what), said)
}

#[cfg(test)]
mod tests {
    use crate::account::tests::{account, assert_told, heads};

    const NAMES: &str = r#"{"failed": true, "channels": {"0": "limit"}, "handles": {"0": {"1": "seen"}},
        "values": {"0": {"1": "20", "2": "30"}}}"#;

    #[test]
    fn a_change_that_was_marked_without_a_look_is_told() {
        // 20 is marked before anybody looks, and 30 is received.
        let entries = [
            "0 0 send 0 1 = stored",
            "1 0 mark-unchanged 1 = done",
            "0 0 send 0 2 = stored",
            "1 0 changed 1 = done",
            "1 0 borrow 1 = value 2",
        ];
        let found = account(&["watch 0"], &entries, NAMES);
        let below = [
            "  call 1   limit.send(\"20\")         actor 0  the change",
            "  call 2   limit.mark_unchanged()   actor 1  marked it as seen without a look",
        ];
        let head = "`seen` marked 1 of 2 changes of `limit` as seen without a look";
        assert_told(&found, &[head], 0, &below);
        assert_eq!((found.look, found.facts[0].order), (2, 11));
    }

    #[test]
    fn a_change_that_was_known_before_the_mark_or_looked_at_behind_it_is_none() {
        for known in [
            &["1 0 borrow 1 = value 1", "1 0 mark-unchanged 1 = done"][..],
            &[
                "1 0 has-changed 1 = flag yes",
                "1 0 mark-unchanged 1 = done",
            ],
            &["1 0 mark-unchanged 1 = done", "1 0 borrow 1 = value 1"],
            &[
                "1 0 mark-unchanged 1 = done",
                "1 0 mark-changed 1 = done",
                "1 0 changed 1 = done",
            ],
        ] {
            let entries = [&["0 0 send 0 1 = stored"], known].concat();
            let found = account(&["watch 0"], &entries, NAMES);
            assert_eq!(heads(&found), [""; 0], "{known:?}");
        }
        // Nor is the first value a change, or one that came before the receiver.
        let entries = [
            "1 0 mark-unchanged 1 = done",
            "0 0 send 0 1 = stored",
            "1 0 update 1 = value 1",
            "0 0 subscribe 0 = new 2",
            "1 0 mark-unchanged 2 = done",
        ];
        let found = account(&["watch 0"], &entries, NAMES);
        assert_eq!(heads(&found), [""; 0]);
    }

    #[test]
    fn the_last_of_several_is_told_and_others_are_counted() {
        let pair = ["0 0 send 0 1 = stored", "1 0 mark-unchanged 1 = done"];
        let entries = [&pair[..], &pair, &["1 0 borrow 1 = value 1"]].concat();
        let found = account(&["watch 0"], &entries, NAMES);
        // The second of them was looked at behind its mark.
        let head = "`seen` marked 1 of 2 changes of `limit` as seen without a look";
        assert_eq!(heads(&found), [head]);
        assert_eq!(found.facts[0].steps[1].place, 2);
        let entries = [&pair[..], &pair].concat();
        let found = account(&["watch 0"], &entries, NAMES);
        let head = "`seen` marked 2 of 2 changes of `limit` as seen without a look";
        assert_eq!(heads(&found), [head]);
        assert!(found.facts[0].text()[1].ends_with("the last of these changes"));
    }

    #[test]
    fn a_fourth_receiver_is_counted() {
        let clones = [
            "0 0 clone-receiver 1 = new 2",
            "0 0 clone-receiver 1 = new 3",
            "0 0 clone-receiver 1 = new 4",
        ];
        let marks = [
            "0 0 mark-unchanged 1 = done",
            "0 0 mark-unchanged 2 = done",
            "0 0 mark-unchanged 3 = done",
            "0 0 mark-unchanged 4 = done",
        ];
        let entries = [&clones[..], &["0 0 send 0 1 = stored"], &marks].concat();
        let found = account(&["watch 0"], &entries, NAMES);
        assert_eq!(found.facts.len(), 4);
        let rest = "and 1 more watch's reader marked 1 change as seen without a look";
        assert_eq!(found.rest.text().unwrap(), rest);
        // One that was dropped before the failure comes behind what else is found of used ones.
        let entries = [
            &clones[..],
            &["0 0 send 0 1 = stored"],
            &marks[..2],
            &["0 0 drop 1 = dropped"],
        ]
        .concat();
        let names = NAMES.replace(
            "{\"failed\"",
            r#"{"panics": [{"text": "", "location": null, "actor": 1, "since": 7}], "failed""#,
        );
        let found = account(&["watch 0"], &entries, &names);
        let orders: Vec<_> = found.facts.iter().map(|it| (it.order, it.kind)).collect();
        assert_eq!(
            orders,
            [
                (11, "unlooked"),
                (13, "unlooked"),
                (13, "unlearned"),
                (13, "unlearned")
            ]
        );
    }
}
