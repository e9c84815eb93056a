//! Which variables can be watched by a data breakpoint, and by which condition of the console.

use crate::Answer;
use crate::arguments::Arguments;
use crate::expression::{Entity, thing_of};
use crate::moves::Debuggee;
use crate::variables::Group;
use serde_json::json;
use yovanelum::debugger::Channel;

impl Debuggee {
    /// Says by which condition a variable can be watched.
    pub(crate) fn data_breakpoint_info(&self, given: Arguments<'_>) -> Answer {
        let name = given.need_text("name")?;
        let group = given.number("variablesReference")?.filter(|id| *id > 0);
        let owner = group.map(|id| self.group_of(id)).transpose()?;
        let (thing, field) = match owner {
            Some(Group::Channel(channel, _)) => match self.receiver_named(channel, name) {
                Some(handle) => (Some(Entity::Receiver(channel, handle)), "lag"),
                None => (Some(Entity::Channel(channel)), name),
            },
            Some(Group::Receivers(channel, _)) => (
                self.receiver_named(channel, name)
                    .map(|handle| Entity::Receiver(channel, handle)),
                "lag",
            ),
            Some(Group::Receiver(channel, handle, _)) => {
                (Some(Entity::Receiver(channel, handle)), name)
            }
            _ => match name.rsplit_once('.') {
                Some((owner, field)) => (thing_of(owner.trim_matches('`'), &self.recording), field),
                None => (thing_of(name, &self.recording), "lag"),
            },
        };
        let watched = thing.and_then(|thing| self.watched(thing, field));
        Ok(match watched {
            Some((id, text)) => {
                json!({"dataId": id, "description": text, "accessTypes": ["write"], "canPersist": true})
            }
            None => json!({"dataId": null, "description": format!("`{name}` can't be watched")}),
        })
    }

    fn receiver_named(&self, channel: u32, name: &str) -> Option<u32> {
        let mut own = self
            .recording
            .receivers
            .range((channel, 0)..=(channel, u32::MAX));
        let found =
            own.find(|(channel, handle)| self.recording.names.receiver(*channel, *handle) == name);
        found.map(|(_, handle)| *handle)
    }

    /// Returns the condition for a field, and what it says.
    fn watched(&self, thing: Entity, field: &str) -> Option<(String, String)> {
        match thing {
            Entity::Receiver(channel, handle) => self.watched_receiver(channel, handle, field),
            Entity::Channel(channel) => self.watched_channel(channel, field),
            Entity::Actor(_) => None,
        }
    }

    fn is_broadcast(&self, channel: u32) -> bool {
        matches!(
            self.recording.walk().channel(channel),
            Some(Channel::Broadcast(_))
        )
    }

    fn watched_receiver(&self, channel: u32, handle: u32, field: &str) -> Option<(String, String)> {
        let name = self.recording.names.receiver(channel, handle);
        let of = format!("{channel} {handle}");
        match (field, self.is_broadcast(channel)) {
            ("lag", true) => Some((format!("lagging {of}"), format!("{name} begins to lag"))),
            ("unread", true) => Some((
                format!("unread {of} N"),
                format!("{name} has N values to receive (N is the condition)"),
            )),
            ("seen" | "lag", false) => Some((
                format!("unseen {of}"),
                format!("{name} has a value that it hasn't seen"),
            )),
            _ => None,
        }
    }

    fn watched_channel(&self, channel: u32, field: &str) -> Option<(String, String)> {
        let name = self.recording.names.channel(channel);
        match (field, self.is_broadcast(channel)) {
            ("closed" | "lag" | "senders", _) => {
                Some((format!("closed {channel}"), format!("{name} closes")))
            }
            ("queued" | "window", true) => Some((
                format!("queue {channel} N"),
                format!("{name} retains N values (N is the condition)"),
            )),
            ("version" | "value", false) => Some((
                format!("version {channel} N"),
                format!("{name} has version N (N is the condition)"),
            )),
            _ => None,
        }
    }
}
