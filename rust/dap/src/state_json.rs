//! The state of all channels as the console of `ttd` prints it for `state json`.

use serde_json::{Value, json};
use yovanelum::debugger::{Broadcast, Channel, Walk, Watch};

/// Returns the line, whose keys are in the order of their bytes.
pub(crate) fn line(walk: &Walk) -> String {
    let channels = (0..walk.channels()).filter_map(|number| walk.channel(number));
    let channels: Vec<_> = channels.map(|channel| of_channel(&channel)).collect();
    json!({"channels": channels, "len": walk.len(), "place": walk.place()}).to_string()
}

fn of_channel(channel: &Channel<'_>) -> Value {
    let mut shown = match channel {
        Channel::Broadcast(it) => of_broadcast(channel, it),
        Channel::Watch(it) => of_watch(channel, it),
    };
    shown["closed"] = channel.is_closed().into();
    shown["made"] = channel.made().into();
    shown["senders"] = channel.senders().collect();
    shown
}

fn of_broadcast(channel: &Channel<'_>, it: &Broadcast<'_>) -> Value {
    let receivers = channel.receivers().filter_map(|handle| {
        let shown = it.receiver(handle)?;
        let (position, unread, lag) = (shown.position, shown.unread, shown.lag);
        Some(json!({"handle": handle, "position": position, "unread": unread, "lag": lag}))
    });
    let mut shown = json!({
        "kind": "broadcast",
        "capacity": it.capacity(),
        "sent": it.sent(),
        "queued": it.queued(),
        "window": it.window().collect::<Vec<_>>(),
        "receivers": receivers.collect::<Vec<_>>(),
    });
    let weak: Vec<_> = channel.weak_senders().collect();
    if !weak.is_empty() {
        shown["weak"] = weak.into();
    }
    shown
}

fn of_watch(channel: &Channel<'_>, it: &Watch<'_>) -> Value {
    let receivers = channel.receivers().filter_map(|handle| {
        let shown = it.receiver(handle)?;
        Some(json!({"handle": handle, "mark": shown.mark, "seen": shown.is_seen}))
    });
    json!({
        "kind": "watch",
        "value": it.value(),
        "version": it.version(),
        "receivers": receivers.collect::<Vec<_>>(),
    })
}
