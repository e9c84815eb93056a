//! What a call had to go by that waits for another value of a watch: the last change, whose value
//! may be the wrong one, and a later `send_if_modified` that told nobody.

use super::Context;
use super::fact::{FactStep, Role};
use super::silence::last_sent;
use yovanelum_record::journal::Spec;
use yovanelum_record::listed::{IntoList, PushAll};
use yovanelum_record::operation::Operation;
use yovanelum_record::reply::Reply;
use yovanelum_record::sidecar::WaitingCall;

/// Returns them as steps, up to a place, of what came while the receiver of a call was there.
pub(super) fn steps(context: &Context<'_>, call: &WaitingCall, until: u64) -> Vec<FactStep> {
    let (channel, receiver) = (call.channel as u32, call.handle as u32);
    let handle = context.history.channel(channel).handle(receiver);
    let is_reader = handle.is_some_and(|handle| handle.is_receiver);
    if !is_reader || !matches!(context.run.specs()[channel as usize], Spec::Watch(_)) {
        return vec![];
    }
    let made = handle.map_or(0, |handle| handle.made);
    let changed = Some(last_sent(context, channel, until)).filter(|place| *place > made);
    let quiet = told_nobody(context, channel, (changed.unwrap_or(made), until));
    let changed = changed.map(|place| {
        let call = context.naming.call(place, &context.run.entry(place));
        context.step(place, Role::Change, call, "the last change".to_string())
    });
    let quiet = quiet.map(|place| {
        // The journal has the word of `send_modify`, which always tells.
        let call = context.naming.method(channel, "send_if_modified");
        let said = "told nobody: its closure returned false".to_string();
        context.step(place, Role::Change, call, said)
    });
    let mut steps = changed.into_iter().listed();
    steps.push_all(quiet);
    steps
}

/// Returns the last `send_if_modified` of a channel between two places whose closure returned
/// `false`.
fn told_nobody(context: &Context<'_>, channel: u32, (after, until): (u64, u64)) -> Option<u64> {
    let after = after.max(context.history.lead);
    let mut places = (after + 1..=until).rev();
    places.find(|place| {
        let entry = context.run.entry(*place);
        let is_modify = entry.word == Operation::Modify && entry.reply == Reply::Told(0);
        entry.channel == channel && is_modify
    })
}

#[cfg(test)]
mod tests {
    use crate::account::tests::{account, assert_told, heads};

    #[test]
    fn a_wait_has_the_last_change_and_what_told_nobody() {
        // The value 7 isn't what the reader waits for, and 8 is stored without a word.
        let entries = [
            "0 0 send 0 7 = stored",
            "1 0 update 1 = value 7",
            "0 0 modify 0 8 no = told no",
        ];
        let names = r#"{"values": {"0": {"7": "failed"}}, "hangs": true,
            "waiting": [{"actor": 1, "channel": 0, "handle": 1, "call": "wait_for", "since": 2, "location": null}]}"#;
        let found = account(&["watch 0"], &entries, names);
        let head = "`channel 0: wait_for` of actor 1 waits: channel 0 wasn't changed since call 1";
        let below = [
            "  call 1   channel 0: send(\"failed\")     actor 0  the last change",
            "  call 3   channel 0: send_if_modified   actor 0  told nobody: its closure returned false",
            "  call 2   channel 0: wait_for           actor 1  waits",
            "  senders: sender 0 (last used at call 3 by actor 0)",
        ];
        assert_told(&found, &[head], 0, &below);
    }

    #[test]
    fn of_a_broadcast_and_before_the_receiver_there_is_none() {
        let wait = |handle: u32| {
            format!(
                r#"{{"hangs": true, "waiting": [{{"actor": 1, "channel": 0, "handle": {handle}, "call": "recv", "since": 2, "location": null}}]}}"#
            )
        };
        let entries = ["0 0 send 0 7 = sent 1", "1 0 recv 1 = value 7"];
        let found = account(&["broadcast 4"], &entries, &wait(1));
        assert_eq!(found.facts[0].steps.len(), 1);
        let entries = ["0 0 send 0 7 = stored", "0 0 subscribe 0 = new 2"];
        let found = account(&["watch 0"], &entries, &wait(2));
        let wanted = "`channel 0: recv` of actor 1 waits: the last change came before receiver 2 was created (call 2)";
        assert!(
            heads(&found)[0].starts_with(&wanted[..60]),
            "{:?}",
            heads(&found)
        );
        let steps = found.facts[0].steps.iter();
        assert!(steps.map(|step| step.place).eq([1, 2, 2]));
    }
}
