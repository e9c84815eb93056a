//! The strategy that prefers what brings the channels nearer to a condition.

mod call;
#[cfg(test)]
mod tests;

use super::asked;
use super::chooser::Candidate;
use super::random::{Random, hashed};
use super::run;
use super::schedule::What;
use crate::channels::channel::Known;
use call::StandingCall;
use std::sync::Arc;
use yovanelum_record::by_text::TextMap;
use yovanelum_record::conditions::{ConditionSubject, NamedCondition};
use yovanelum_record::listed::IntoList;
use yovanelum_record::numbered::NumberSet;
use yovanelum_record::operation::Operation;

/// What it is to the condition that one goes on.
#[derive(Clone, Copy, Debug, PartialEq, Eq, PartialOrd, Ord)]
enum Effect {
    /// It leads away from it.
    Away,
    None,
    /// It brings it nearer.
    Nearer,
    /// It meets it, or the others can't bring it nearer before it.
    First,
}

/// Lets those go first who bring the condition nearer, and holds those who lead away from it. A
/// seed says at which choices it is chance instead.
pub(super) struct Guide {
    condition: NamedCondition,
    look: fn() -> Vec<Known>,
    seed: u64,
    random: Random,
    /// One choice in this number is made by chance. 0 stands for none.
    by_chance: usize,
    /// How many choices are made by chance at first.
    at_first: usize,
    /// Whether of those who do as well the same one always goes first, and not one by chance.
    has_favourites: bool,
    /// What each caller was seen to do.
    habits: TextMap<Habit>,
    /// The receivers by which the caller of the condition's name receives.
    read_by_name: NumberSet<(u32, u32)>,
}

#[derive(Clone, Copy, Default)]
struct Habit {
    leads_nearer: bool,
    leads_away: bool,
}

impl Guide {
    /// Returns `None` if the variable has no condition.
    pub(super) fn new(seed: u64, steps: u32) -> Option<Guide> {
        let condition = asked::condition()?;
        Some(Guide::to(condition, seed, steps, run::channels))
    }

    fn to(condition: NamedCondition, seed: u64, steps: u32, look: fn() -> Vec<Known>) -> Guide {
        let mut random = Random::new(seed);
        let at_first = random.below(steps.max(1) as usize);
        Guide {
            condition,
            look,
            seed,
            random,
            by_chance: if seed % 4 == 3 { 8 } else { 0 },
            at_first: if seed % 4 == 2 { at_first } else { 0 },
            has_favourites: seed % 2 == 1,
            habits: TextMap::new(),
            read_by_name: NumberSet::new(),
        }
    }

    pub(super) fn choose(&mut self, candidates: &[Candidate]) -> usize {
        let channels = (self.look)();
        let effects: Vec<Effect> = candidates
            .iter()
            .map(|candidate| self.effect(candidate, &channels))
            .listed();
        let chosen = self.one_of(candidates, &effects);
        if matches!(candidates[chosen].what, What::Call { .. }) {
            let habit = self.habits.get_or_default(&candidates[chosen].who);
            habit.leads_nearer |= effects[chosen] == Effect::Nearer;
            habit.leads_away |= effects[chosen] == Effect::Away;
        }
        chosen
    }

    fn one_of(&mut self, candidates: &[Candidate], effects: &[Effect]) -> usize {
        if effects.len() == 1 {
            return 0;
        }
        let is_first = self.at_first > 0;
        self.at_first = self.at_first.saturating_sub(1);
        if is_first || self.by_chance > 0 && self.random.below(self.by_chance) == 0 {
            return self.random.below(effects.len());
        }
        let best = effects.iter().max().copied().unwrap_or(Effect::None);
        let of_best = (0..effects.len()).filter(|index| effects[*index] == best);
        let of_best: Vec<usize> = of_best.listed();
        let by_priority = || {
            let priority = |index: &&usize| hashed(self.seed, &candidates[**index].who);
            of_best.iter().max_by_key(priority).copied()
        };
        match by_priority().filter(|_| self.has_favourites) {
            Some(favourite) => favourite,
            None => of_best[self.random.below(of_best.len())],
        }
    }

    fn effect(&mut self, candidate: &Candidate, channels: &[Known]) -> Effect {
        match &candidate.what {
            What::Time { .. } | What::Point { .. } => Effect::None,
            What::Poll if self.is_to_stand_at_send(&candidate.who) => Effect::First,
            What::Poll => self.effect_of_poll(&candidate.who, channels),
            What::Call {
                word,
                channel,
                handle,
            } => {
                let known = channels.iter().find(|known| known.number == *channel);
                let (Some(channel), Some(word)) = (known, Operation::of_text(word)) else {
                    return Effect::None;
                };
                self.effect_of_call(&StandingCall {
                    who: &candidate.who,
                    word,
                    handle: *handle,
                    channel,
                })
            }
        }
    }

    /// What a task does isn't known before its poll, but what it did before.
    fn effect_of_poll(&self, who: &Arc<str>, channels: &[Known]) -> Effect {
        if self.condition.sort == ConditionSubject::Actor {
            return self.of_actor(who);
        }
        let habit = self.habits.get(who).copied().unwrap_or_default();
        match (habit.leads_nearer, habit.leads_away) {
            (true, false) => Effect::Nearer,
            (false, true) => Effect::Away,
            _ if self.is_to_begin(who, channels) => Effect::First,
            _ => Effect::None,
        }
    }

    /// Whether it is the caller of the condition's name, and the receiver by which it is to receive
    /// isn't known yet.
    fn is_to_begin(&self, who: &str, channels: &[Known]) -> bool {
        matches!(
            self.condition.sort,
            ConditionSubject::BroadcastReceiver | ConditionSubject::WatchReceiver
        ) && who == self.condition.name
            && self.read_by_name.is_empty()
            && !channels.iter().any(|channel| self.has_receiver(channel))
    }

    /// Whether the condition is met by a send of this caller if it stands there while the receivers
    /// go.
    fn is_to_stand_at_send(&self, who: &str) -> bool {
        let is_of_send =
            self.condition.sort == ConditionSubject::Reply && self.condition.name == "no-receivers";
        is_of_send && self.habits.get(who).is_some_and(|habit| habit.leads_away)
    }

    fn effect_of_call(&mut self, call: &StandingCall<'_>) -> Effect {
        match self.condition.sort {
            ConditionSubject::Reply if !call.sends() && self.is_to_stand_at_send(call.who) => {
                Effect::First
            }
            ConditionSubject::Actor => self.of_actor(call.who),
            ConditionSubject::Reply => call.effect_on_reply(&self.condition.name),
            ConditionSubject::Channel | ConditionSubject::Broadcast | ConditionSubject::Watch => {
                if is_channel(&self.condition.name, call.channel) {
                    call.effect_on_channel(self.condition.word)
                } else {
                    Effect::None
                }
            }
            ConditionSubject::BroadcastReceiver | ConditionSubject::WatchReceiver => {
                self.effect_on_receiver(call)
            }
        }
    }

    fn of_actor(&self, who: &str) -> Effect {
        if who == self.condition.name {
            Effect::Nearer
        } else {
            Effect::None
        }
    }

    fn effect_on_receiver(&mut self, call: &StandingCall<'_>) -> Effect {
        let is_of_watch = self.condition.sort == ConditionSubject::WatchReceiver;
        if call.channel.is_watch != is_of_watch {
            return Effect::None;
        }
        let by_name = call.who == self.condition.name;
        if by_name && call.receives() {
            self.read_by_name.insert((call.channel.number, call.handle));
        }
        if self.is_receiver(call.channel, call.handle) {
            return match call.word {
                Operation::MarkChanged => Effect::Nearer,
                _ if call.receives() || call.word == Operation::Drop => Effect::Away,
                _ => Effect::None,
            };
        }
        if call.sends() && self.has_receiver(call.channel) {
            Effect::Nearer
        } else if by_name && self.read_by_name.is_empty() {
            Effect::First
        } else {
            Effect::None
        }
    }

    /// Whether the condition is of a receiver of this channel.
    fn has_receiver(&self, channel: &Known) -> bool {
        let mut receivers = channel.receivers.iter();
        receivers.any(|receiver| self.is_receiver(channel, receiver.handle))
    }

    fn is_receiver(&self, channel: &Known, handle: u32) -> bool {
        let is_meant = self.read_by_name.contains(&(channel.number, handle));
        is_meant || is_named(&self.condition.name, channel, handle)
    }
}

/// Whether this is the channel of this name or number.
fn is_channel(name: &str, channel: &Known) -> bool {
    let number = name.strip_prefix("channel").unwrap_or(name).trim_start();
    channel.name.as_deref() == Some(name) || number.parse() == Ok(channel.number)
}

/// Whether a handle of this channel is the receiver of this name, or of these numbers.
fn is_named(name: &str, channel: &Known, handle: u32) -> bool {
    let mut receivers = channel.receivers.iter();
    let own = receivers.find(|receiver| receiver.handle == handle);
    let own = own.and_then(|receiver| receiver.name.as_deref());
    let is_numbered = |text: &str| text.trim_start().parse() == Ok(handle);
    match name.rsplit_once('.').or_else(|| name.rsplit_once(' ')) {
        _ if own == Some(name) => true,
        Some(("receiver", number)) => own.is_none() && is_numbered(number),
        Some((of, number)) => {
            is_channel(of, channel)
                && is_numbered(number.strip_prefix("receiver").unwrap_or(number))
        }
        None => false,
    }
}
