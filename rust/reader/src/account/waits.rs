//! The calls that still wait.

use super::fact::own_location;
use super::finding::Finding;
use super::silence::Silence;
use super::window::{BEFORE, number_in_snapshots};
use super::{Context, woken};
use yovanelum_record::listed::IntoList;
use yovanelum_record::sidecar::{HeldBy, SourceLocation, WaitingCall};
use yovanelum_record::visible;

/// A call that waits.
#[derive(Debug)]
pub struct WaitAtEnd {
    pub(super) actor: u64,
    pub(super) channel: u64,
    pub(super) handle: u64,
    pub(super) call: String,
    /// How many calls had been made when it began to wait.
    pub(super) since: u64,
    /// The number that snapshots have for the last of these calls, in a dump.
    pub(super) since_stamp: Option<u64>,
    pub(super) location: Option<SourceLocation>,
    // Where the sender or receiver that it is a call of was created.
    made: Option<SourceLocation>,
    /// Whether it was woken and hasn't gone on since.
    pub(super) is_woken: bool,
    /// Whether a fact that is told in full tells of it.
    pub is_told: bool,
    /// Who waits, in which call, since when and where.
    pub text: String,
}

impl WaitAtEnd {
    /// Where it waits in the user's sources.
    pub fn own_location(&self) -> Option<&SourceLocation> {
        own_location(self.location.as_ref(), self.made.as_ref())
    }
}

/// Returns a call by its index among those that wait, and then those that waited when the test
/// failed.
pub(super) fn at_failure<'a>(context: &Context<'a>, index: usize) -> &'a WaitingCall {
    let names = context.names;
    let ended = |index| &names.waited_at_failure[index - names.waiting.len()];
    names.waiting.get(index).unwrap_or_else(|| ended(index))
}

/// Returns the calls that wait on channels of the run. These findings are told in full.
pub(super) fn all(context: &Context<'_>, told: &[Finding]) -> Vec<WaitAtEnd> {
    let channels = context.run.specs().len() as u64;
    let calls = context.names.waiting.iter().enumerate();
    let calls = calls.filter(|(_, call)| call.channel < channels);
    let is_told = |index: usize| {
        let mut told = told.iter();
        told.any(|it| matches!(it, Finding::Silence(Silence::Waits(at)) if *at == index))
    };
    let waits = calls.map(|(index, call)| WaitAtEnd {
        is_told: is_told(index),
        ..wait(context, call)
    });
    waits.listed()
}

fn wait(context: &Context<'_>, call: &WaitingCall) -> WaitAtEnd {
    let since = context
        .run
        .place_of_stamp(call.since)
        .max(context.history.lead);
    let location = call.location.and_then(|index| context.naming.source(index));
    let woken = woken::said(context, call);
    WaitAtEnd {
        actor: call.actor,
        channel: call.channel,
        handle: call.handle,
        call: call.call.clone(),
        since,
        since_stamp: number_in_snapshots(context.names, call.since),
        location: location.cloned(),
        made: context
            .naming
            .made(call.channel as u32, call.handle as u32)
            .cloned(),
        is_woken: woken.is_some(),
        is_told: false,
        text: text(context, call, since, location) + woken.as_deref().unwrap_or_default(),
    }
}

fn text(
    context: &Context<'_>,
    call: &WaitingCall,
    since: u64,
    location: Option<&SourceLocation>,
) -> String {
    let naming = context.naming;
    let since = match since {
        0 => "the start".to_string(),
        place if place == context.history.lead => BEFORE.to_string(),
        place => visible::call(place),
    };
    let stamp = number_in_snapshots(context.names, call.since);
    let stamp = stamp.map_or(String::new(), |stamp| format!(" ({stamp} in snapshots)"));
    let at = location.map_or(String::new(), |location| {
        format!(", {}", visible::line_of(location))
    });
    format!(
        "{} in `{}` since {since}{stamp}{at}{}",
        naming.actor(call.actor),
        naming.method(call.channel as u32, &visible::name(&call.call)),
        call.held_by
            .map_or(String::new(), |by| held_by(context, by)),
    )
}

/// Returns whose look holds the lock that a call waits for.
fn held_by(context: &Context<'_>, by: HeldBy) -> String {
    let naming = context.naming;
    let location = by.location.and_then(|index| naming.source(index));
    let at = location.map_or(String::new(), |location| {
        format!(" at {}", visible::line_of(location))
    });
    match by.actor {
        Some(actor) => format!(", for a look taken{at} by {}", naming.actor(actor)),
        None => ", for the lock of the value".to_string(),
    }
}

#[cfg(test)]
mod tests {
    use crate::account::tests::{account, heads};

    #[test]
    fn waits_on_channels_that_the_run_has_not_are_left_out() {
        let sent = ["0 0 send 0 1 = sent 1"];
        let wait = r#"[{"actor": 0, "channel": 9, "handle": 1, "call": "recv", "since": 1, "until": 1, "location": null}]"#;
        let panic = r#""panics": [{"text": "timeout", "location": null, "actor": 0, "since": 1}]"#;
        for kind in ["dropped_waits", "waiting", "waited_at_failure"] {
            let names = format!(r#"{{"{kind}": {wait}, {panic}}}"#);
            let found = account(&["broadcast 4"], &sent, &names);
            assert_eq!(heads(&found), [""; 0], "{kind}");
            assert!(found.waiting.is_empty(), "{kind}");
        }
    }
}
