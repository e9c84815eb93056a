//! Which call marked the last change of a watch as seen, so that `changed` waits for another one.

use super::Context;
use super::fact::{FactStep, Role};
use super::silence::last_sent;
use super::watches::UNSEEN;
use yovanelum_record::journal::{RunEntry, Spec};
use yovanelum_record::operation::{CallSet, Operation};
use yovanelum_record::reply::Reply;
use yovanelum_record::sidecar::{SourceLocation, WaitingCall};
use yovanelum_record::visible;

/// The call that marked the change which another call waits for.
pub(super) struct Marked {
    // The place of the call.
    mark: u64,
    /// Whether the receiver never looked at the change.
    pub(super) is_unseen: bool,
}

impl Marked {
    /// Returns the call that marked the last change before a place, if that is why this call waits.
    /// `wait_for` looks at what is marked too. A call that is made again, as in a loop, marks each
    /// change that it returns for.
    pub(super) fn of(context: &Context<'_>, call: &WaitingCall, until: u64) -> Option<Marked> {
        let (channel, receiver) = (call.channel as u32, call.handle as u32);
        let history = context.history.channel(channel);
        let handle = history.handle(receiver).filter(|it| it.is_receiver)?;
        let is_watch = matches!(context.run.specs()[channel as usize], Spec::Watch(_));
        if !is_watch || call.call == "wait_for" {
            return None;
        }
        let change = last_sent(context, channel, until);
        if change <= handle.made.max(context.history.lead) {
            return None;
        }
        let mut places = (change + 1..=until).rev();
        let mark = places.find(|place| {
            let entry = context.run.entry(*place);
            let is_own = (entry.channel, entry.handle) == (channel, receiver);
            is_own && marks(&entry)
        });
        let mark = mark.filter(|mark| !is_same(context, call, (channel, *mark)))?;
        let last = handle.dismissed.last;
        Some(Marked {
            mark,
            is_unseen: last.is_some_and(|last| last.mark == mark),
        })
    }

    /// As `which mark_unchanged marked as seen (call 3)`.
    pub(super) fn text(&self, context: &Context<'_>) -> String {
        let entry = context.run.entry(self.mark);
        let method = context.naming.word(self.mark, &entry).method();
        let at = visible::call(self.mark);
        format!(", which `{method}` marked as seen ({at})")
    }

    /// The call as a step of a fact.
    pub(super) fn step(&self, context: &Context<'_>) -> FactStep {
        let said = if self.is_unseen {
            UNSEEN
        } else {
            "marked it as seen"
        };
        context.call_step(self.mark, Role::Mark, said.to_string())
    }
}

/// Whether a call marked the version that was there as seen.
fn marks(entry: &RunEntry) -> bool {
    let is_done = matches!(entry.reply, Reply::Value(_) | Reply::Done);
    is_done && entry.word.is(CallSet::MARKS)
}

/// Whether the call at a place waited where this one does.
fn is_same(context: &Context<'_>, call: &WaitingCall, (channel, place): (u32, u64)) -> bool {
    let entry = context.run.entry(place);
    let waits = [Operation::Changed, Operation::Update.marked()];
    let source: Option<&SourceLocation> = context.naming.call_source(channel, place);
    let here = call.location.and_then(|index| context.naming.source(index));
    waits.contains(&context.naming.word(place, &entry)) && source == here
}

#[cfg(test)]
mod tests {
    use crate::account::tests::{account, assert_told};

    /// The names of a run whose actor 1 waits in `changed` of receiver 1, at `a.rs:9`. The calls of
    /// the channel were made at these lines of the same file.
    fn waiting(since: u64, lines: &[u64]) -> String {
        let locations: Vec<_> = lines
            .iter()
            .map(|it| format!(r#"["a.rs", {it}, 1]"#))
            .collect();
        let calls: Vec<_> = (0..lines.len()).map(|it| it.to_string()).collect();
        format!(
            r#"{{"channels": {{"0": "limit"}}, "handles": {{"0": {{"1": "reader"}}}}, "hangs": true,
            "locations": [{}, ["a.rs", 9, 1]], "calls": {{"0": [{}]}},
            "waiting": [{{"actor": 1, "channel": 0, "handle": 1, "call": "changed", "since": {since}, "location": {}}}]}}"#,
            locations.join(", "),
            calls.join(", "),
            lines.len()
        )
    }

    #[test]
    fn a_mark_without_a_look_is_why_changed_waits() {
        // 7 is sent, and `mark_unchanged` marks it before anybody looks.
        let entries = ["0 0 send 0 7 = stored", "1 0 mark-unchanged 1 = done"];
        let found = account(&["watch 0"], &entries, &waiting(2, &[3, 5]));
        let head = "`limit.changed` of actor 1 waits: `limit` wasn't changed since call 1, which `mark_unchanged` marked as seen (call 2)";
        let below = [
            "  call 1   limit.send(value 7)      actor 0  a.rs:3   the last change",
            "  call 2   limit.mark_unchanged()   actor 1  a.rs:5   marked it as seen without a look",
            "  call 2   limit.changed            actor 1  a.rs:9   waits",
            "  senders: sender 0 (last used at call 1 by actor 0)",
        ];
        // The wait tells it, so it is no fact of its own.
        assert_told(&found, &[head], 0, &below);
        assert_eq!(found.rest.text(), None);
    }

    #[test]
    fn what_was_looked_at_is_marked_all_the_same() {
        for looks in [
            ["1 0 borrow 1 = value 7", "1 0 mark-unchanged 1 = done"],
            ["1 0 mark-unchanged 1 = done", "1 0 borrow 1 = value 7"],
        ] {
            let entries = [&["0 0 send 0 7 = stored"], &looks[..]].concat();
            let found = account(&["watch 0"], &entries, &waiting(3, &[3, 5, 6]));
            let text = found.facts[0].text();
            assert_eq!(found.facts.len(), 1, "{looks:?}");
            assert!(text[0].contains(", which `mark_unchanged` marked as seen (call "));
            assert!(text[2].ends_with("   marked it as seen"), "{text:#?}");
        }
    }

    #[test]
    fn another_call_of_the_receiver_may_have_marked_it() {
        for (call, method) in [
            ("update 1 = value 7", "borrow_and_update"),
            ("changed 1 = done", "changed"),
        ] {
            let entries = ["0 0 send 0 7 = stored".to_string(), format!("1 0 {call}")];
            let entries = entries.each_ref().map(String::as_str);
            let found = account(&["watch 0"], &entries, &waiting(2, &[3, 5]));
            let head = &found.facts[0].head;
            assert!(
                head.ends_with(&format!(
                    "since call 1, which `{method}` marked as seen (call 2)"
                )),
                "{head}"
            );
        }
        // It is the call itself that returned for this change, and waits for the next one.
        let entries = ["0 0 send 0 7 = stored", "1 0 changed 1 = done"];
        let found = account(&["watch 0"], &entries, &waiting(2, &[3, 9]));
        assert!(found.facts[0].head.ends_with("wasn't changed since call 1"));
        assert_eq!(found.facts[0].steps.len(), 2);
    }

    #[test]
    fn a_mark_before_the_change_or_of_another_receiver_is_none() {
        for entries in [
            &[
                "1 0 mark-unchanged 1 = done",
                "0 0 send 0 7 = stored",
                "0 0 subscribe 0 = new 2",
            ][..],
            &[
                "0 0 send 0 7 = stored",
                "0 0 clone-receiver 1 = new 2",
                "0 0 mark-unchanged 2 = done",
            ],
        ] {
            let names = waiting(3, &[3, 5, 6]);
            let found = account(&["watch 0"], entries, &names);
            assert!(
                !found.facts[0].head.contains("marked"),
                "{:?}",
                found.facts[0].head
            );
        }
    }
}
