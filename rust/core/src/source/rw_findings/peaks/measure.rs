//! What is measured of receivers, and where.
// From crates/rw_findings/src/peaks/measure.rt, with its contracts as comments. //+

//~ ghost use Rattle.std.specs.Prelude.{◌≡◌};
//~ ghost use Rattle.rw_findings.specs.Peaks.{measured_of};
//~ ghost use Rattle.rw_world.specs.Kinds.{broadcast_shown, watch_shown};

use crate::source::rw_broadcast::Broadcast;
use crate::source::rw_law::Reversible;
use crate::source::rw_watch::Watch;
use crate::source::rw_world::Chan;

/// What is measured of a receiver. It is 0 where there is no such receiver, or the channel is of the other kind.
#[derive(Clone, Copy, Debug, PartialEq, Eq)]
pub enum Measure {
    /// How many values of a broadcast were overwritten before the receiver had received them.
    Lag,
    /// How many values of a broadcast the receiver has yet to receive, including overwritten ones.
    Unread,
    /// 1 where the receiver of a watch has not seen its value.
    Unseen,
}

/// Stretches of places, one after the other.
#[derive(Clone, Copy, Debug, PartialEq, Eq)]
pub struct Stretches {
    /// The place at which the first stretch begins.
    pub from: u64,
    /// How many places each stretch has.
    pub each: u64,
    /// How many stretches there are. Those behind the run's last place have no place.
    pub count: u64,
}

impl Measure {
    /// Returns the measure of a receiver of a broadcast.
    fn of_broadcast<V: Copy>(self, machine: &Broadcast<V>, receiver: u32) -> u64
//~         ensures { result ≡ measured_of self (broadcast_shown machine.now.shown) receiver }
    {
        match self {
            Measure::Lag => machine.lag(receiver).unwrap_or(0),
            Measure::Unread => machine.unread(receiver).unwrap_or(0),
            Measure::Unseen => 0,
        }
    }

    /// Returns the measure of a receiver of a watch.
    fn of_watch<V: Copy>(self, machine: &Watch<V>, receiver: u32) -> u64
//~         ensures { result ≡ measured_of self (watch_shown machine.now.shown) receiver }
    {
        match self {
            Measure::Lag | Measure::Unread => 0,
            Measure::Unseen => match machine.is_seen(receiver) {
                Some(false) => 1,
                _ => 0,
            },
        }
    }

    /// Returns the measure of a receiver of a channel.
    pub(super) fn of<V: Copy>(self, channel: &Chan<V>, receiver: u32) -> u64
//~         ensures { result ≡ measured_of self (⟦<Chan<V> as Reversible>⟧.shown channel.now) receiver }
    {
        match channel {
            Chan::Broadcast(machine) => self.of_broadcast(machine, receiver),
            Chan::Watch(machine) => self.of_watch(machine, receiver),
        }
    }
}
