//! A call that was woken and hasn't gone on since: by which call, and what is said of it. That it
//! was is what the names say, who have it from the proved list of who waits. Older names don't say
//! it, and then a send to a call that waited for one is what woke it.

mod causes;

pub(super) use causes::Causes;

use super::Context;
use super::fact::{FactStep, Role};
use yovanelum_record::journal::Spec;
use yovanelum_record::sidecar::WaitingCall;
use yovanelum_record::visible;

/// What has woken a call.
#[derive(Clone, Copy, Debug, PartialEq, Eq)]
pub(super) enum Awakening {
    /// A value came, or a change.
    Sent(u64),
    /// The last sender was dropped.
    NoSender(u64),
    /// The last receiver was dropped.
    NoReceiver(u64),
}

impl Awakening {
    /// The place of the call that did it.
    pub(super) fn place(self) -> u64 {
        match self {
            Awakening::Sent(place) | Awakening::NoSender(place) | Awakening::NoReceiver(place) => {
                place
            }
        }
    }

    /// Puts the call that did it into a step.
    pub(super) fn step(self, context: &Context<'_>) -> FactStep {
        let place = self.place();
        let dropped = |what: &str| {
            let said = "the call was not polled since".to_string();
            context.step(place, Role::Close, what.to_string(), said)
        };
        match self {
            Awakening::Sent(_) => {
                let said = "came, and the call was not polled since".to_string();
                context.call_step(place, Role::Sent, said)
            }
            Awakening::NoSender(_) => dropped("dropped the last sender"),
            Awakening::NoReceiver(_) => dropped("dropped the last receiver"),
        }
    }
}

/// Returns what has woken a call that has not gone on since, up to a place, if it was woken and
/// that is in the run.
pub(super) fn awakening(
    context: &Context<'_>,
    call: &WaitingCall,
    until: u64,
) -> Option<Awakening> {
    match call.woken {
        Some(false) => None,
        Some(true) => by_names(context, call, until),
        None => by_run(context, call, until),
    }
}

/// Whether the names say that a call was woken, which no call of the run may have done. Where a
/// test failed, that may have been its unwinding, and so it isn't told.
pub(super) fn is_woken_somewhere(context: &Context<'_>, call: &WaitingCall) -> bool {
    call.woken == Some(true) && context.failure.end().is_none()
}

/// Of a call that the names say was woken.
fn by_names(context: &Context<'_>, call: &WaitingCall, until: u64) -> Option<Awakening> {
    let causes = context.causes();
    let since = context.place_of(call.since);
    let (channel, handle) = (call.channel as u32, call.handle as u32);
    if call.call == "closed" {
        let closed = causes.no_receiver(channel, (since, until));
        return closed.map(Awakening::NoReceiver);
    }
    // A `wait_for` may have looked in between, and waited on.
    let looked = causes.last_look((channel, handle), (since, until));
    let since = looked.unwrap_or(since);
    let sent = causes.first_sent(channel, (since, until));
    let closed = causes.no_sender(channel, (since, until));
    match (sent, closed) {
        (Some(sent), Some(closed)) if closed < sent => Some(Awakening::NoSender(closed)),
        (Some(sent), _) => Some(Awakening::Sent(sent)),
        (None, closed) => closed.map(Awakening::NoSender),
    }
}

/// Of a call of which the names don't say it.
fn by_run(context: &Context<'_>, call: &WaitingCall, until: u64) -> Option<Awakening> {
    // A `wait_for` may have looked at it and go on waiting.
    let is_ended_by_any = ["recv", "blocking_recv", "changed"].contains(&call.call.as_str());
    if call.held_by.is_some() || !is_ended_by_any {
        return None;
    }
    let since = context.place_of(call.since);
    let sent = context
        .causes()
        .first_sent(call.channel as u32, (since, until));
    sent.map(Awakening::Sent)
}

/// Says that a call which is told to wait was woken, and by what: its task or thread hasn't run
/// since. Where a test failed, what came after that isn't said.
pub(super) fn said(context: &Context<'_>, call: &WaitingCall) -> Option<String> {
    let failure = context.failure.end();
    let end = failure.map_or(context.run.len(), |end| end.place);
    let Some(awakening) = awakening(context, call, end) else {
        let is_woken = is_woken_somewhere(context, call);
        return is_woken.then(|| ", which was woken and hasn't gone on since".to_string());
    };
    let (channel, place) = (call.channel as u32, awakening.place());
    let what = match awakening {
        Awakening::Sent(_) => match context.run.specs()[channel as usize] {
            Spec::Broadcast(_) => "a value came",
            Spec::Watch(_) => "a change came",
        },
        Awakening::NoSender(_) => "the last sender was dropped",
        Awakening::NoReceiver(_) => "the last receiver was dropped",
    };
    let location = context.naming.call_source(channel, place);
    let at = location.map_or(String::new(), |at| format!(", {}", visible::line_of(at)));
    let place = visible::call(place);
    Some(format!(", which hasn't run since {what} ({place}{at})"))
}

#[cfg(test)]
mod tests {
    use crate::account::Account;
    use crate::account::tests::{account, assert_told, heads};
    use yovanelum_record::steps;

    #[test]
    fn a_call_that_has_something_to_receive_waits_for_its_turn() {
        let entries = [
            "1 0 recv 1 = value 0",
            "0 0 send 0 1 = sent 1",
            "0 0 send 0 2 = sent 1",
        ];
        let entries = ["0 0 send 0 0 = sent 1"].into_iter().chain(entries);
        let entries: Vec<_> = entries.collect();
        let told = |call: &str, failed: u64| {
            let names = format!(
                r#"{{"locations": [["a.rs", 7, 1]], "calls": {{"0": [null, null, 0, null]}},
                "panics": [{{"text": "", "location": null, "actor": 0, "since": {failed}}}],
                "waiting": [{{"actor": 1, "channel": 0, "handle": 1, "call": "{call}", "since": 2, "location": null}}]}}"#
            );
            let found = account(&["broadcast 4"], &entries, &names);
            found.waiting[0].text.clone()
        };
        let waits = |call: &str| format!("actor 1 in `channel 0: {call}` since call 2");
        let came = ", which hasn't run since a value came (call 3, a.rs:7)";
        assert_eq!(told("recv", 4), waits("recv") + came);
        // At the failure nothing had come, and a predicate may have refused what did.
        assert_eq!(told("recv", 2), waits("recv"));
        assert_eq!(told("wait_for", 4), waits("wait_for"));
    }

    /// The account of a run in which actor 1 waits with this handle since this stamp, and was
    /// woken, wasn't, or names of an older version don't say it. It hangs, or has failed behind a
    /// call.
    fn found(
        (channel, entries): (&str, &[&str]),
        (call, handle, since): (&str, u32, u64),
        woken: Option<bool>,
        failed: Option<u64>,
    ) -> Account {
        let woken = woken.map_or(String::new(), |is| format!(r#", "woken": {is}"#));
        let ending = failed.map_or(r#""hangs": true"#.to_string(), |since| {
            format!(r#""panics": [{{"text": "", "location": null, "actor": 0, "since": {since}}}]"#)
        });
        let names = format!(
            r#"{{{ending}, "waiting": [{{"actor": 1, "channel": 0, "handle": {handle}, "call": "{call}", "since": {since}, "location": null{woken}}}]}}"#
        );
        account(&[channel], entries, &names)
    }

    #[test]
    fn who_was_woken_is_what_the_names_say() {
        // The second of two senders is dropped by call 3: that is what wakes the receiver.
        let closed = [
            "0 0 clone-sender 0 = new 2",
            "0 0 drop 0 = dropped",
            "0 0 drop 2 = dropped",
        ];
        let told = |woken, failed| {
            let run = ("broadcast 4", &closed[..]);
            let found = found(run, ("recv", 1, 1), woken, failed);
            found.waiting[0].text.clone()
        };
        let waits = "actor 1 in `channel 0: recv` since call 1";
        let by_drop =
            format!("{waits}, which hasn't run since the last sender was dropped (call 3)");
        assert_eq!(told(Some(true), None), by_drop);
        let found_woken = |woken| {
            let found = found(("broadcast 4", &closed[..]), ("recv", 1, 1), woken, None);
            found.to_json().contains(r#""woken": true"#)
        };
        assert_eq!(
            [Some(true), Some(false), None].map(found_woken),
            [true, false, false]
        );
        assert_eq!(told(Some(true), Some(3)), by_drop);
        // The drop was of the unwinding.
        assert_eq!(told(Some(true), Some(2)), waits);
        assert_eq!(told(Some(false), None), waits);
        assert_eq!(told(None, None), waits);
    }

    #[test]
    fn a_value_that_came_is_none_where_the_names_say_that_it_waits() {
        let sent = ["0 0 send 0 0 = sent 1"];
        let told = |woken| {
            let found = found(("broadcast 4", &sent), ("recv", 1, 0), woken, None);
            found.waiting[0].text.clone()
        };
        let waits = "actor 1 in `channel 0: recv` since the start";
        let came = format!("{waits}, which hasn't run since a value came (call 1)");
        assert_eq!(told(Some(true)), came);
        assert_eq!(told(None), came);
        assert_eq!(told(Some(false)), waits);
    }

    #[test]
    fn a_wait_for_was_woken_by_the_change_behind_its_last_look() {
        let entries = [
            "1 0 update 1 = value 0",
            "0 0 send 0 1 = stored",
            "1 0 update 1 = value 1",
            "0 0 modify 0 2 no = told no",
            "0 0 send 0 3 = stored",
        ];
        let told = |entries: &[&str], woken| {
            let found = found(("watch 0", entries), ("wait_for", 1, 1), woken, None);
            found.waiting[0].text.clone()
        };
        let waits = "actor 1 in `channel 0: wait_for` since call 1";
        let came = format!("{waits}, which hasn't run since a change came (call 5)");
        assert_eq!(told(&entries, Some(true)), came);
        assert_eq!(told(&entries, Some(false)), waits);
        // What woke it came too late for the run.
        let somehow = format!("{waits}, which was woken and hasn't gone on since");
        assert_eq!(told(&entries[..4], Some(true)), somehow);
    }

    #[test]
    fn a_call_that_awaits_the_end_of_receivers_was_woken_by_the_last() {
        let entries = [
            "0 0 subscribe 0 = new 2",
            "0 0 drop 1 = dropped",
            "0 0 send 0 7 = sent 1",
            "2 0 drop 2 = dropped",
        ];
        let told = |since| {
            let run = ("broadcast 4", &entries[..]);
            let found = found(run, ("closed", 0, since), Some(true), None);
            found.waiting[0].text.clone()
        };
        let by_drop = "which hasn't run since the last receiver was dropped (call 4)";
        let wanted = format!("actor 1 in `channel 0: closed` since call 1, {by_drop}");
        assert_eq!(told(1), wanted);
    }

    #[test]
    fn a_weak_sender_is_none_that_is_left() {
        let entries = ["0 0 downgrade 0 = new 2", "0 0 drop 0 = dropped"];
        let run = ("broadcast 4", &entries[..]);
        let found = found(run, ("recv", 1, 1), Some(true), None);
        let by_drop = "which hasn't run since the last sender was dropped (call 2)";
        let wanted = format!("actor 1 in `channel 0: recv` since call 1, {by_drop}");
        assert_eq!(found.waiting[0].text, wanted);
    }

    #[test]
    fn a_fact_says_that_a_call_was_woken() {
        let sent = ["0 0 send 0 5 = sent 1", "0 0 send 0 6 = sent 1"];
        let run = ("broadcast 4", &sent[..]);
        let woken = found(run, ("recv", 1, 0), Some(true), None);
        let head =
            "`channel 0: recv` of actor 1 was woken: it was not polled since call 1, which ends it";
        let below = [
            "  call 1      channel 0: send(value 5)   actor 0  came, and the call was not polled since",
            "  the start   channel 0: recv            actor 1  waited",
        ];
        assert_told(&woken, &[head], 0, &below);
        let waits = found(("broadcast 4", &[]), ("recv", 1, 0), Some(false), None);
        let head = "`channel 0: recv` of actor 1 waits: nothing was sent to channel 0";
        assert_eq!(heads(&waits), [head]);
        // Its last sender is gone.
        let closed = ["0 0 drop 0 = dropped"];
        let woken = found(("broadcast 4", &closed), ("recv", 1, 0), Some(true), None);
        let head =
            "`channel 0: recv` of actor 1 was woken: it was not polled since call 1, which ends it";
        let below = [
            "  call 1      dropped the last sender   actor 0  the call was not polled since",
            "  the start   channel 0: recv           actor 1  waited",
        ];
        assert_eq!(heads(&woken)[0], head);
        assert_eq!(woken.facts[0].text()[1..], below);
        // The run ends before the call that woke it.
        let woken = found(("broadcast 4", &[]), ("recv", 1, 0), Some(true), None);
        let head = "`channel 0: recv` of actor 1 was woken: it was not polled since";
        assert_eq!(heads(&woken), [head]);
    }

    /// Reads the account of a run with so many receivers that wait since twenty times as many
    /// calls, of which a send has woken all. Returns how many entries and handles that reads.
    fn steps_of_woken(waits: u64) -> u64 {
        let made = (1..waits).map(|number| format!("0 0 subscribe 0 = new {}", number + 1));
        let calls = (0..20 * waits).map(|value| format!("0 1 send 0 {value} = sent 1"));
        let sent = format!("0 0 send 0 7 = sent {waits}");
        let entries: Vec<_> = made.chain(calls).chain([sent]).collect();
        let entries: Vec<_> = entries.iter().map(String::as_str).collect();
        let waiting = (1..=waits).map(|handle| {
            format!(
                r#"{{"actor": 1, "channel": 0, "handle": {handle}, "call": "recv", "since": {}, "location": null, "woken": true}}"#,
                waits - 1
            )
        });
        let waiting: Vec<_> = waiting.collect();
        let names = format!(r#"{{"hangs": true, "waiting": [{}]}}"#, waiting.join(", "));
        let channels = ["broadcast 4", "broadcast 1"];
        let (found, steps) = steps::of(|| account(&channels, &entries, &names));
        let came = format!("since a value came (call {})", entries.len());
        let told = found.waiting.iter();
        let told = told.filter(|wait| wait.text.ends_with(&came));
        assert_eq!(told.count() as u64, waits);
        steps
    }

    #[test]
    fn what_woke_many_calls_is_found_in_steps_that_grow_as_the_run() {
        // Beyond the facts that have words, which are told one by one.
        let [some, twice] = [200, 400].map(steps_of_woken);
        assert!(twice < 5 * some / 2, "{some} and {twice} steps");
    }
}
