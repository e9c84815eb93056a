//! A call that stands, and what it is to a condition.

use super::Effect;
use crate::channels::channel::{Known, KnownReceiver};
use yovanelum_record::operation::{CallSet, Kind, Operation};

/// A call that stands, on a channel.
pub(super) struct StandingCall<'a> {
    pub(super) who: &'a str,
    pub(super) word: Operation,
    pub(super) handle: u32,
    pub(super) channel: &'a Known,
}

impl StandingCall<'_> {
    pub(super) fn sends(&self) -> bool {
        self.word.is(CallSet::SENDS)
    }

    /// Whether it takes what its receiver has not received, or marks it as seen.
    pub(super) fn receives(&self) -> bool {
        self.word.is(CallSet::TAKES) || self.word.is(CallSet::MARKS)
    }

    fn receiver(&self) -> Option<&KnownReceiver> {
        let mut receivers = self.channel.receivers.iter();
        receivers.find(|receiver| receiver.handle == self.handle)
    }

    fn drops_sender(&self) -> bool {
        self.word == Operation::Drop && self.receiver().is_none()
    }

    fn drops_receiver(&self) -> bool {
        self.word == Operation::Drop && self.receiver().is_some()
    }

    /// What it is to a condition with this word, on its channel.
    pub(super) fn effect_on_channel(&self, word: &str) -> Effect {
        match (word, self.word) {
            ("closed", _) if self.sends() || self.drops_sender() => Effect::Nearer,
            ("closed", _) if self.word.makes() == Some(Kind::Sender) => Effect::Away,
            ("closed", _) => Effect::None,
            ("queue", Operation::Subscribe) if self.channel.receivers.is_empty() => Effect::First,
            ("queue", _) if self.receives() || self.drops_receiver() => Effect::Away,
            ("queue" | "version", _) if !self.sends() => Effect::None,
            _ => Effect::Nearer,
        }
    }

    /// What it is to a reply with this first word.
    pub(super) fn effect_on_reply(&self, word: &str) -> Effect {
        match word {
            "lagged" if self.channel.is_watch => Effect::None,
            "lagged" if self.receives() => {
                if self.receiver().is_some_and(|it| it.lags) {
                    Effect::First
                } else {
                    Effect::Away
                }
            }
            "lagged" | "closed" if self.sends() => Effect::Nearer,
            "lagged" | "closed" if self.drops_receiver() => Effect::Away,
            "closed" | "no-sender" if self.drops_sender() => Effect::Nearer,
            "no-sender" if self.sends() => Effect::Nearer,
            "no-sender" if self.word.makes() == Some(Kind::Sender) => Effect::Away,
            "no-receivers" if self.sends() => {
                if self.channel.receivers.is_empty() {
                    Effect::First
                } else {
                    Effect::Away
                }
            }
            "no-receivers" if self.receives() || self.drops_receiver() => Effect::Nearer,
            _ => Effect::None,
        }
    }
}
