//! A call that waits for the lock of a watch's value, which a look holds.

use super::Context;
use super::fact::{FactStep, Role};
use yovanelum_record::reply::Reply;
use yovanelum_record::sidecar::{HeldBy, WaitingCall};
use yovanelum_record::visible;

/// Says who holds the lock: a look, with where it was taken and by whom.
pub(super) fn text(context: &Context<'_>, by: HeldBy) -> String {
    let naming = context.naming;
    let location = by.location.and_then(|index| naming.source(index));
    let at = location.map_or(String::new(), |location| {
        format!(" at {}", visible::line_of(location))
    });
    match by.actor {
        Some(actor) => {
            let actor = naming.actor(actor);
            format!("a look taken{at} by {actor} holds the lock of the value")
        }
        None => "another call holds the lock of the value".to_string(),
    }
}

/// Returns that look as a step: the last one before the wait that its actor took on that line.
pub(super) fn step(context: &Context<'_>, call: &WaitingCall, by: HeldBy) -> Option<FactStep> {
    let channel = call.channel as u32;
    let calls = context.names.calls.get(&call.channel)?;
    let is_it = |place: &u64| {
        let entry = context.run.entry(*place);
        entry.channel == channel
            && Some(u64::from(entry.actor)) == by.actor
            && matches!(entry.reply, Reply::Value(_))
            && calls
                .get(context.history.index_on_channel(*place))
                .is_some_and(|location| *location == by.location)
    };
    let mut places = (context.history.lead + 1..=context.place_of(call.since)).rev();
    let place = places.find(is_it)?;
    let look = context.naming.call(place, &context.run.entry(place));
    Some(context.step(place, Role::Look, look, "holds the lock".to_string()))
}
