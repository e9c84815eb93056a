//! Conditions on the runs of worlds.
// From crates/rw_navigator/src/worlds/condition.rt, with its contracts as comments. //+

//~ ghost use Rattle.std.specs.Prelude.{◌≡◌, Some, None, nat_lt, if◌then◌else◌, slice_get, option_map};
//~ ghost use Rattle.rw_navigator.specs.Conditions.{broadcast_at, closed_at, has, lag_at, queued_at, same_word, seen_at, unread_at, version_at, watch_at};
//~ ghost use Rattle.rw_words.specs.ReplyWords.{reply_word_of};

use crate::source::rw_navigator::conditions::Probe;
use crate::source::rw_broadcast::Broadcast;
use crate::source::rw_law::{Entry, Reversible};
use crate::source::rw_watch::Watch;
use crate::source::rw_words::{ReplyWord, reply_word_of};
use crate::source::rw_world::{Chan, ChanReply, World};

/// A condition to search a world's run for: the first three are on its entries, the others on its states.
///
/// Channels, handles and counts may be any number. A condition with a number that names nothing is false.
#[derive(Clone, Copy, Debug)]
pub enum Cond {
    /// The entry is that actor's.
    Actor(u64),
    /// The entry is on that channel.
    Channel(u64),
    /// This is the first word of the entry's reply.
    ReplyKind(ReplyWord),
    /// The receiver of this broadcast has at least this many values to receive.
    UnreadAtLeast {
        channel: u64,
        handle: u64,
        count: u64,
    },
    /// The receiver of this broadcast lags.
    Lagging {
        channel: u64,
        handle: u64,
    },
    /// The receiver of this watch has not seen its value.
    Unseen {
        channel: u64,
        handle: u64,
    },
    /// The version of this watch is at least this.
    VersionAtLeast {
        channel: u64,
        version: u64,
    },
    /// No sender of this channel is alive.
    Closed(u64),
    /// At least this many values are queued in this broadcast.
    QueueAtLeast {
        channel: u64,
        count: u64,
    },
}

impl<V: Copy> Probe<World<V>> for Cond {
//~     ghost use Rattle.rw_navigator.specs.Conditions.{asks_step, holds_of_step, holds_of_shown};

//~     ghost asks_step = { asks_step };

//~     ghost holds_of_step = { holds_of_step };

    // It depends only on what the world shows.
//~     ghost holds_of_state = { λ cond world. holds_of_shown cond (⟦<World<V> as Reversible>⟧.shown world) };

    fn on_step(&self) -> bool {
        matches!(self, Cond::Actor(_) | Cond::Channel(_) | Cond::ReplyKind(_))
    }

    fn step(&self, entry: &Entry<World<V>>) -> bool {
        match *self {
            Cond::Actor(actor) => u64::from(entry.actor) == actor,
            Cond::Channel(channel) => u64::from(entry.call.channel) == channel,
            Cond::ReplyKind(word) => begins_with(&entry.reply, word),
            _ => false,
        }
    }

    fn state(&self, world: &World<V>) -> bool {
        match *self {
            Cond::UnreadAtLeast {
                channel,
                handle,
                count,
            } => unread_at(world, channel, handle).is_some_and(|unread| count <= unread),
            Cond::Lagging { channel, handle } => {
                lag_at(world, channel, handle).is_some_and(|lag| 0 < lag)
            }
            Cond::Unseen { channel, handle } => {
                seen_at(world, channel, handle).is_some_and(|seen| !seen)
            }
            Cond::VersionAtLeast { channel, version } => {
                version_at(world, channel).is_some_and(|reached| version <= reached)
            }
            Cond::Closed(channel) => closed_at(world, channel).is_some_and(|closed| closed),
            Cond::QueueAtLeast { channel, count } => {
                queued_at(world, channel).is_some_and(|queued| count <= queued)
            }
            Cond::Actor(_) | Cond::Channel(_) | Cond::ReplyKind(_) => false,
        }
    }
}

/// Whether a reply's first word is this one.
fn begins_with<V: Copy>(reply: &ChanReply<V>, word: ReplyWord) -> bool
//~     ensures { result ≡ has (same_word word) (reply_word_of reply.now) }
{
    match reply_word_of(reply) {
        Some(first) => word.text() == first.text(),
        None => false,
    }
}

fn channel_at<V: Copy>(world: &World<V>, channel: u64) -> Option<&Chan<V>>
//~     ensures { option_map (λ m. ⟦<Chan<V> as Reversible>⟧.shown m.now) result ≡ slice_get (⟦<World<V> as Reversible>⟧.shown world.now) channel }
{
    world.channel(/*+*/crate::shim::saturated(/*+*/channel /*+*/)/*+*//*~as usize~*/)
}

fn broadcast_at<V: Copy>(world: &World<V>, channel: u64) -> Option<&Broadcast<V>>
//~     ensures { option_map (λ m. m.now.shown) result ≡ broadcast_at (⟦<World<V> as Reversible>⟧.shown world.now) channel }
{
    match channel_at(world, channel)? {
        Chan::Broadcast(machine) => Some(machine),
        Chan::Watch(_) => None,
    }
}

fn watch_at<V: Copy>(world: &World<V>, channel: u64) -> Option<&Watch<V>>
//~     ensures { option_map (λ m. m.now.shown) result ≡ watch_at (⟦<World<V> as Reversible>⟧.shown world.now) channel }
{
    match channel_at(world, channel)? {
        Chan::Watch(machine) => Some(machine),
        Chan::Broadcast(_) => None,
    }
}

/// Returns the handle of this number, if it was made.
fn handle_below(made: u32, handle: u64) -> Option<u32>
//~     ensures { result ≡ (if nat_lt handle made then Some handle else None) }
{
    if handle < u64::from(made) {
        Some(handle as u32)
    } else {
        None
    }
}

//~ #[tactic(auto, using(std::proofs::lemmas::Option::slice_get_past))]
fn unread_at<V: Copy>(world: &World<V>, channel: u64, handle: u64) -> Option<u64>
//~     ensures { result ≡ unread_at (⟦<World<V> as Reversible>⟧.shown world.now) channel handle }
{
    let broadcast = broadcast_at(world, channel)?;
    broadcast.unread(handle_below(broadcast.made(), handle)?)
}

/// Returns how many values a receiver of a broadcast has yet to receive that are no longer retained, if it is alive.
pub fn lag_at<V: Copy>(world: &World<V>, channel: u64, handle: u64) -> Option<u64>
//~     ensures { result ≡ lag_at (⟦<World<V> as Reversible>⟧.shown world.now) channel handle }
{
    let broadcast = broadcast_at(world, channel)?;
    broadcast.lag(handle_below(broadcast.made(), handle)?)
}

fn queued_at<V: Copy>(world: &World<V>, channel: u64) -> Option<u64>
//~     ensures { result ≡ queued_at (⟦<World<V> as Reversible>⟧.shown world.now) channel }
{
    Some(broadcast_at(world, channel)?.queued())
}

/// Whether a receiver of a watch has seen its value, if it is alive.
pub fn seen_at<V: Copy>(world: &World<V>, channel: u64, handle: u64) -> Option<bool>
//~     ensures { result ≡ seen_at (⟦<World<V> as Reversible>⟧.shown world.now) channel handle }
{
    let watch = watch_at(world, channel)?;
    watch.is_seen(handle_below(watch.made(), handle)?)
}

fn version_at<V: Copy>(world: &World<V>, channel: u64) -> Option<u64>
//~     ensures { result ≡ version_at (⟦<World<V> as Reversible>⟧.shown world.now) channel }
{
    Some(watch_at(world, channel)?.version())
}

/// Whether no sender of a channel is alive, if there is such a channel.
pub fn closed_at<V: Copy>(world: &World<V>, channel: u64) -> Option<bool>
//~     ensures { result ≡ closed_at (⟦<World<V> as Reversible>⟧.shown world.now) channel }
{
    match channel_at(world, channel)? {
        Chan::Broadcast(machine) => Some(machine.closed()),
        Chan::Watch(machine) => Some(machine.closed()),
    }
}
