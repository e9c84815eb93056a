//! The things of a run by their names, and conditions on them, as `lagging audit`.
//!
//! It is for `yovanelum-dap` and for exploring, and changes with them.

use super::recorded::Recorded;
use super::{Channel, Condition, Walk};
use yovanelum_record::by_text::TextMap;
use yovanelum_record::conditions::{ConditionSubject, NamedCondition};
use yovanelum_record::listed::{AllListed, IntoList};
use yovanelum_record::numbered::{NumberMap, NumberSet};
use yovanelum_record::visible;

/// What a name stands for.
#[derive(Clone, Copy, Debug, PartialEq, Eq)]
pub enum Entity {
    /// A channel, by its number.
    Channel(u32),
    /// A receiver, by the number of its channel and its own.
    Receiver(u32, u32),
    /// An actor, by its number.
    Actor(u32),
}

/// A number that no receiver has in a channel.
const NO_NUMBER: u64 = u64::MAX;

/// The things of a run, with their names.
#[derive(Default)]
pub struct Entities {
    channels: Vec<(String, bool)>,
    receivers: NumberMap<(u32, u32), String>,
    /// The numbers of receivers in their channels, where these differ from those in the journal.
    numbers: NumberMap<(u32, u32), u64>,
    actors: NumberMap<u32, String>,
    /// The only actor that made calls by each receiver without a name of its own, as far as that is
    /// known.
    users: NumberMap<(u32, u32), String>,
    by_name: TextMap<Entity>,
}

impl Entities {
    /// Returns a condition by the numbers of this run. Returns `None` if its name is none there.
    /// Numbers are taken as they are.
    pub fn condition(&self, asked: &NamedCondition) -> Option<Condition> {
        if asked.sort == ConditionSubject::Reply {
            return Condition::reply(&asked.name);
        }
        let numbers = match self.named_of(asked.sort, &asked.name) {
            Some(Entity::Receiver(channel, handle)) => format!("{channel} {handle}"),
            Some(Entity::Channel(number) | Entity::Actor(number)) => number.to_string(),
            None => asked.name.clone(),
        };
        let count = asked.count.map(|count| format!(" {count}"));
        let text = format!("{} {numbers}{}", asked.word, count.unwrap_or_default());
        text.parse().ok()
    }

    /// Whether the run has what a condition is of.
    pub fn has_subject_of(&self, asked: &NamedCondition) -> bool {
        asked.sort == ConditionSubject::Reply || self.has(asked.sort, &asked.name)
    }

    /// Names the things of a run: its channels, and these receivers and actors.
    pub fn of(
        walk: &Walk,
        names: &Recorded,
        receivers: impl IntoIterator<Item = (u32, u32)>,
        actors: impl IntoIterator<Item = u32>,
    ) -> Entities {
        let is_watch = |channel| matches!(walk.channel(channel), Some(Channel::Watch(_)));
        let channel = |channel| (names.channel(channel), is_watch(channel));
        let receiver = |(channel, handle)| ((channel, handle), names.receiver(channel, handle));
        let actors = actors.into_iter();
        let mut things = Entities::named(
            (0..walk.channels()).map(channel).collect(),
            receivers.into_iter().map(receiver).collect(),
            actors.map(|it| (it, names.actor(it))).collect(),
        );
        let all = things.receivers.keys();
        let numbers = all.map(|&(channel, handle)| {
            let number = names.number(channel, handle);
            ((channel, handle), number.unwrap_or(NO_NUMBER))
        });
        things.numbers = numbers.collect();
        things
    }

    /// Finds the things of a run, and names them.
    pub fn found_in(walk: &Walk, names: &Recorded) -> Entities {
        let mut receivers: NumberSet<_> =
            (0..walk.channels()).map(|channel| (channel, 1)).collect();
        let mut actors = NumberSet::new();
        let mut users = NumberMap::new();
        for entry in (1..=walk.len()).filter_map(|place| walk.entry(place)) {
            actors.insert(entry.actor());
            receivers.extend(entry.new_receiver());
            let handle = (entry.channel(), entry.handle());
            let user = users.get_or_insert_with(handle, || Some(entry.actor()));
            *user = user.filter(|user| *user == entry.actor());
        }
        let mut things = Entities::of(walk, names, receivers, actors);
        let users = users.into_iter();
        things.users = users
            .filter_map(|(handle, user)| Some((handle, names.actor(user?))))
            .collect();
        things
    }

    /// A name that several things have is that of a receiver before a channel, and of a channel
    /// before an actor.
    fn named(
        channels: Vec<(String, bool)>,
        receivers: NumberMap<(u32, u32), String>,
        actors: NumberMap<u32, String>,
    ) -> Entities {
        let mut by_name = TextMap::new();
        for (actor, name) in &actors {
            by_name.insert(name, Entity::Actor(*actor));
        }
        for (channel, (name, _)) in (0..).zip(&channels) {
            by_name.insert(name, Entity::Channel(channel));
        }
        for ((channel, handle), name) in receivers.iter().rev() {
            by_name.insert(name, Entity::Receiver(*channel, *handle));
        }
        Entities {
            by_name,
            channels,
            receivers,
            numbers: NumberMap::new(),
            actors,
            users: NumberMap::new(),
        }
    }

    /// Returns the number of a receiver in its channel.
    pub fn number_of(&self, channel: u32, handle: u32) -> u64 {
        let number = self.numbers.get(&(channel, handle));
        number.copied().unwrap_or(handle.into())
    }

    /// Returns the number in the journal of a receiver that is written as `receiver1`.
    fn receiver_numbered(&self, channel: u32, text: &str) -> Option<u32> {
        let number = u64::from(numbered(text, "receiver")?);
        let all = self.receivers.range((channel, 0)..=(channel, u32::MAX));
        let mut all = all.map(|((_, handle), _)| *handle);
        all.find(|handle| self.number_of(channel, *handle) == number)
    }

    /// The names.
    pub fn names(&self) -> impl Iterator<Item = &str> {
        self.by_name.keys()
    }

    /// Returns what a name stands for: a receiver, a channel, or an actor; or `channel0`, or the
    /// receiver of a number as `orders.receiver1`.
    pub fn find(&self, name: &str) -> Option<Entity> {
        // That of a place isn't cut.
        let of_name = |name: &str| self.by_name.get(name);
        if let Some(thing) = of_name(&visible::name(name)).or_else(|| of_name(name)) {
            return Some(*thing);
        }
        if let Some((channel, receiver)) = name.rsplit_once('.') {
            let Some(Entity::Channel(channel)) = self.find(channel) else {
                return None;
            };
            let handle = self.receiver_numbered(channel, receiver)?;
            return Some(Entity::Receiver(channel, handle));
        }
        let channel = numbered(name, "channel")?;
        ((channel as usize) < self.channels.len()).then_some(Entity::Channel(channel))
    }

    /// Returns the actor of a name.
    pub fn actor(&self, name: &str) -> Option<u32> {
        let name = visible::name(name);
        let mut actors = self.actors.iter();
        actors
            .find(|(_, known)| **known == name)
            .map(|(actor, _)| *actor)
    }

    fn channel(&self, name: &str, is_meant: &dyn Fn(u32) -> bool) -> Option<u32> {
        let visible = visible::name(name);
        let is_named =
            |number: &u32| [name, &visible].contains(&&*self.channels[*number as usize].0);
        let meant = || (0..self.channels.len() as u32).filter(|number| is_meant(*number));
        let numbered = numbered(name, "channel");
        meant()
            .find(is_named)
            .or_else(|| meant().find(|number| Some(*number) == numbered))
    }

    fn receiver(&self, name: &str, is_meant: &dyn Fn(u32) -> bool) -> Option<(u32, u32)> {
        let visible = visible::name(name);
        let meant = || {
            self.receivers
                .iter()
                .filter(|((channel, _), _)| is_meant(*channel))
        };
        let of_name = || meant().find(|(_, known)| **known == visible);
        // One that was never read has no reader's name.
        let is_user = |receiver: &(u32, u32)| self.users.get(receiver) == Some(&visible);
        let used = || {
            meant().find(|((channel, handle), known)| {
                let number = self.number_of(*channel, *handle);
                **known == format!("receiver {number}") && is_user(&(*channel, *handle))
            })
        };
        if let Some((receiver, _)) = of_name().or_else(used) {
            return Some(*receiver);
        }
        let (channel, receiver) = name.rsplit_once('.')?;
        let channel = self.channel(channel, is_meant)?;
        let handle = self.receiver_numbered(channel, receiver)?;
        Some((channel, handle))
    }

    fn is_watch(&self, channel: u32) -> Option<bool> {
        let (_, is_watch) = self.channels.get(channel as usize)?;
        Some(*is_watch)
    }

    /// Returns the thing of this sort that has this name.
    pub(super) fn named_of(&self, sort: ConditionSubject, name: &str) -> Option<Entity> {
        let is_meant = |channel| sort.is_of_channel(self.is_watch(channel));
        Some(match sort {
            ConditionSubject::Reply => return None,
            ConditionSubject::Actor => Entity::Actor(self.actor(name)?),
            ConditionSubject::Channel | ConditionSubject::Broadcast | ConditionSubject::Watch => {
                Entity::Channel(self.channel(name, &is_meant)?)
            }
            ConditionSubject::BroadcastReceiver | ConditionSubject::WatchReceiver => {
                let (channel, handle) = self.receiver(name, &is_meant)?;
                Entity::Receiver(channel, handle)
            }
        })
    }

    /// Whether there is a thing of this sort that has this name, or these numbers.
    fn has(&self, sort: ConditionSubject, name: &str) -> bool {
        let numbers: Option<Vec<u32>> = name.split(' ').map(|it| it.parse().ok()).all_listed();
        let is_meant = |channel: &u32| sort.is_of_channel(self.is_watch(*channel));
        self.named_of(sort, name).is_some()
            || match (sort, numbers.as_deref()) {
                (ConditionSubject::Actor, Some([actor])) => self.actors.contains_key(actor),
                (
                    ConditionSubject::Channel
                    | ConditionSubject::Broadcast
                    | ConditionSubject::Watch,
                    Some([channel]),
                ) => is_meant(channel),
                (_, Some([channel, handle])) => {
                    is_meant(channel) && self.receivers.contains_key(&(*channel, *handle))
                }
                _ => false,
            }
    }

    /// Returns the names of the things of this sort.
    pub fn names_of(&self, sort: ConditionSubject) -> Vec<String> {
        let is_meant = |channel: u32| sort.is_of_channel(self.is_watch(channel));
        match sort {
            ConditionSubject::Reply => Vec::new(),
            ConditionSubject::Actor => self.actors.values().cloned().listed(),
            ConditionSubject::Channel | ConditionSubject::Broadcast | ConditionSubject::Watch => {
                (0..)
                    .zip(&self.channels)
                    .filter(|(channel, _)| is_meant(*channel))
                    .map(|(_, (name, _))| name.clone())
                    .listed()
            }
            ConditionSubject::BroadcastReceiver | ConditionSubject::WatchReceiver => {
                let meant = self.receivers.iter();
                let meant = meant.filter(|((channel, _), _)| is_meant(*channel));
                meant
                    .map(|((channel, handle), name)| self.name_of(*channel, *handle, name))
                    .listed()
            }
        }
    }

    /// Returns the name of a receiver, with that of its channel where it has none of its own.
    fn name_of(&self, channel: u32, handle: u32, name: &str) -> String {
        let number = self.number_of(channel, handle);
        if *name == format!("receiver {number}") {
            format!("{}.receiver{number}", self.channels[channel as usize].0)
        } else {
            name.to_string()
        }
    }
}

/// Reads `channel0` or `channel 0`.
fn numbered(name: &str, word: &str) -> Option<u32> {
    name.strip_prefix(word)?.trim_start().parse().ok()
}

#[cfg(test)]
mod tests {
    use super::*;

    fn things() -> Entities {
        let named = |name: &str, is_watch| (name.to_string(), is_watch);
        let receivers = [
            ((0, 1), "audit"),
            ((0, 2), "receiver 2"),
            ((1, 1), "the reader"),
        ];
        let actors = [(0, "main"), (1, "audit"), (4, "7")];
        Entities::named(
            vec![named("orders", false), named("config", true)],
            receivers.map(|(it, name)| (it, name.to_string())).into(),
            actors.map(|(it, name)| (it, name.to_string())).into(),
        )
    }

    #[test]
    fn receivers_of_a_window_are_known_by_their_numbers_in_the_channel() {
        let mut things = things();
        things.numbers = [((0, 1), NO_NUMBER), ((0, 2), 107), ((1, 1), 2)].into();
        assert_eq!(
            things.find("orders.receiver107"),
            Some(Entity::Receiver(0, 2))
        );
        assert_eq!(
            things.find("channel1.receiver2"),
            Some(Entity::Receiver(1, 1))
        );
        for text in ["orders.receiver1", "orders.receiver2", "config.receiver1"] {
            assert_eq!(things.find(text), None, "{text}");
        }
        let lagging: NamedCondition = "lagging orders.receiver107".parse().unwrap();
        let numbered = things.condition(&lagging).unwrap();
        assert_eq!(numbered.to_string(), "lagging 0 2");
    }

    fn by_numbers(text: &str) -> Option<String> {
        let condition: NamedCondition = text.parse().unwrap();
        let numbered = things().condition(&condition);
        numbered.map(|condition| condition.to_string())
    }

    #[test]
    fn names_stand_for_the_numbers_of_what_the_condition_is_of() {
        for (text, numbers) in [
            ("lagging audit", "lagging 0 1"),
            ("lagging `audit`", "lagging 0 1"),
            ("actor audit", "actor 1"),
            ("unread receiver 2 3", "unread 0 2 3"),
            ("unread orders.receiver2 3", "unread 0 2 3"),
            ("unseen the reader", "unseen 1 1"),
            ("unseen channel1.receiver1", "unseen 1 1"),
            ("version config 4", "version 1 4"),
            ("closed orders", "closed 0"),
            ("queue channel 0 2", "queue 0 2"),
            ("channel config", "channel 1"),
            ("actor 7", "actor 4"),
            ("actor 1", "actor 1"),
            ("lagging 0 2", "lagging 0 2"),
            ("reply lagged", "reply lagged"),
        ] {
            assert_eq!(by_numbers(text).as_deref(), Some(numbers), "{text}");
            let condition: NamedCondition = text.parse().unwrap();
            assert!(things().has_subject_of(&condition), "{text}");
        }
    }

    #[test]
    fn what_there_is_not_is_no_condition_of_the_run() {
        for text in [
            "lagging audti",
            "lagging the reader",
            "unseen audit",
            "lagging main",
            "version orders 1",
            "queue config 1",
            "closed audit",
            "actor orders",
            "lagging orders.receiver7",
        ] {
            let condition: NamedCondition = text.parse().unwrap();
            assert_eq!(by_numbers(text), None, "{text}");
            assert!(!things().has_subject_of(&condition), "{text}");
        }
        for text in [
            "lagging 0 7",
            "lagging 1 1",
            "closed 2",
            "actor 2",
            "unread 7 1 1",
        ] {
            let condition: NamedCondition = text.parse().unwrap();
            assert_eq!(by_numbers(text).as_deref(), Some(text));
            assert!(!things().has_subject_of(&condition), "{text}");
        }
        assert_eq!(
            things().names_of(ConditionSubject::BroadcastReceiver),
            ["audit", "orders.receiver2"]
        );
    }

    #[test]
    fn a_receiver_that_was_never_read_has_the_name_of_its_only_user() {
        let journal = "ttd-journal 2\nbroadcast 2\nsteps\n1 0 0 send 0 0 = sent 1\n2 3 0 drop 1 = dropped\nend\n";
        let names = "{\"version\": 3, \"actors\": {\"0\": \"shop\", \"3\": \"audit\"}, \"channels\": {}, \"values\": {}}";
        let opened =
            super::super::recorded::Opened::read(journal.as_bytes(), Some(names.to_string()));
        let opened = opened.unwrap_or_else(|fault| panic!("{fault}"));
        assert_eq!(opened.names_fault, None);
        let things = Entities::found_in(&opened.walk, &opened.recorded);
        let condition: NamedCondition = "lagging audit".parse().unwrap();
        assert_eq!(
            things.condition(&condition).unwrap().to_string(),
            "lagging 0 1"
        );
        let condition: NamedCondition = "lagging shop".parse().unwrap();
        assert!(things.condition(&condition).is_none());
    }
}
