//! Where a value went: from a send to its receives, and from a receive to its send.

use crate::arguments::Arguments;
use crate::moves::{Debuggee, REAL_CALL};
use crate::{Answer, recording::Recording};
use serde_json::json;
use yovanelum::debugger::{Channel, Entry};

/// How many receives of a value are listed.
const MOST_TARGETS: usize = 20;

/// A place that a value leads to.
pub(crate) struct Target {
    pub(crate) place: u32,
    pub(crate) label: String,
}

impl Debuggee {
    /// Lists the targets of a frame's call.
    pub(crate) fn step_in_targets(&mut self, given: Arguments<'_>) -> Answer {
        let frame = self.frame_of(given.need_number("frameId")?)?;
        let targets = frame
            .call
            .map(|call| self.targets_of(call))
            .unwrap_or_default();
        let targets = targets
            .into_iter()
            .map(|it| json!({"id": it.place, "label": it.label}));
        let real = json!({"id": REAL_CALL, "label": "the real call, in a native debugger"});
        let real = (self.has_debuggers && frame.call == Some(self.place)).then_some(real);
        Ok(json!({"targets": targets.chain(real).collect::<Vec<_>>()}))
    }

    /// Returns where the value of a call went or came from, the nearest first.
    pub(crate) fn targets_of(&mut self, place: u32) -> Vec<Target> {
        let Some(entry) = self.recording.entry(place) else {
            return vec![];
        };
        let found = match (entry.call(), entry.reply()) {
            (_, "lagged") => {
                let loss = self.recording.loss_at(place);
                let sent = loss.filter(|loss| loss.from > self.recording.first());
                sent.map(|loss| (loss.from, "the send that overwrote the first value"))
                    .into_iter()
                    .collect()
            }
            ("send" | "send-replace" | "modify", _) => {
                receives_of(&mut self.recording, place, &entry)
            }
            (_, "value") => sent_by(&mut self.recording, place, &entry)
                .into_iter()
                .collect(),
            _ => vec![],
        };
        let targets = found.into_iter().map(|(place, what)| Target {
            place,
            label: format!("call {place}: {what}, {}", self.call_text(place)),
        });
        targets.collect()
    }
}

/// The number of a value that a call sent or received at a place: how many were sent before it, or
/// the version of a watch.
fn number_at(recording: &mut Recording, place: u32, entry: &Entry) -> Option<u64> {
    let channel = recording.at(place).channel(entry.channel())?;
    match (channel, entry.reply()) {
        (Channel::Broadcast(channel), "sent") => channel.sent().checked_sub(1),
        (Channel::Broadcast(channel), "value") => {
            channel.receiver(entry.handle())?.position.checked_sub(1)
        }
        (Channel::Watch(channel), "stored" | "old" | "told" | "value") => Some(channel.version()),
        _ => None,
    }
}

/// Returns the receives of what a call sent, in their order.
fn receives_of(recording: &mut Recording, place: u32, sent: &Entry) -> Vec<(u32, &'static str)> {
    let Some(number) = number_at(recording, place, sent) else {
        return vec![];
    };
    let mut found = vec![];
    for later in place + 1..=recording.len() {
        let Some(entry) = recording.entry(later) else {
            break;
        };
        let is_like = entry.channel() == sent.channel()
            && entry.reply() == "value"
            && entry.returned() == sent.value();
        if is_like && number_at(recording, later, &entry) == Some(number) {
            found.push((later, "a receive of it"));
        }
        if found.len() == MOST_TARGETS {
            break;
        }
    }
    found
}

/// Returns the call that sent what a call received.
fn sent_by(recording: &mut Recording, place: u32, received: &Entry) -> Option<(u32, &'static str)> {
    let number = number_at(recording, place, received)?;
    let sends = |entry: &Entry| {
        let has_value =
            entry.channel() == received.channel() && entry.value() == received.returned();
        has_value && matches!(entry.reply(), "sent" | "stored" | "old" | "told")
    };
    for earlier in (1..place).rev() {
        let entry = recording.entry(earlier).filter(sends);
        if entry.is_some_and(|entry| number_at(recording, earlier, &entry) == Some(number)) {
            return Some((earlier, "the send of it"));
        }
    }
    None
}
