//! Opening worlds.
// From crates/rw_world/src/opening.rt, with its contracts as comments. //+
use crate::shim::Vec; //+

//~ ghost use Rattle.std.specs.Prelude.{◌≡◌, ◌≤◌, ◌<◌, ◌↔◌, false, length, map, position, All, IfOk, IfSome, IfNone, IsNone, IsTrue, MatchResult};
//~ ghost use Rattle.rw_world.specs.Channel.{strays_at};
//~ ghost use Rattle.rw_world.specs.Openings.{has_bad_capacity, opening_row, opened_channel, refusal, spec_kind};

use crate::source::rw_world::channels::{Chan, ChanCall};
use crate::source::rw_world::kinds::ChannelKind;
use crate::source::rw_world::rows::Row;
use crate::source::rw_broadcast::{Broadcast, MOST_CAPACITY};
use crate::source::rw_law::{NoMemory, Payload, Reversible};
use crate::source::rw_watch::Watch;
use crate::shim::alloc::Global;
//~ use thiserror::Error;

/// Channels of both kinds, up to 64, each under its number.
pub type World<V> = Row<Chan<V>>;

/// The greatest number of channels in a world.
pub const MOST_CHANNELS: usize = 64;

/// The kind of a channel, with the capacity or the first value that it opens with.
#[derive(Clone, Copy, Debug, PartialEq, Eq)]
pub enum Spec<V> {
    /// A broadcast of this capacity. It retains as many values as the least power of two that is at least this.
    Broadcast(u32),
    /// A watch with this first value.
    Watch(V),
}

/// Why a world wasn't opened: the first that holds, in this order.
#[derive(Clone, Copy, Debug, PartialEq, Eq/*~, Error~*/)]
pub enum OpenFault {
    /// There is no spec.
//~     #[error("no channels")]
    NoChannels,
    /// There are more than 64 specs.
//~     #[error("too many channels")]
    TooManyChannels,
    /// The capacity of this channel is 0 or above 65,536. It is the first such channel.
//~     #[error("bad capacity of channel {0}")]
    BadCapacity(u32),
    /// An allocation failed.
//~     #[error("no memory")]
    NoMemory,
}

impl From<NoMemory> for OpenFault {
//~     ghost use Rattle.std.specs.Prelude.{◌≡◌};
//~     ghost use Rattle.rw_world.specs.declared.opening.OpenFault.{OpenFault};

//~     ghost from_gives = { λ _ fault. fault ≡ OpenFault.NoMemory };

    fn from(_error: NoMemory) -> OpenFault {
        OpenFault::NoMemory
    }
}

impl<V: Copy> Spec<V> {
    /// Returns the kind of the channel.
    pub fn kind(&self) -> ChannelKind
//~         ensures { result ≡ spec_kind self.now }
    {
        match self {
            Spec::Broadcast(_) => ChannelKind::Broadcast,
            Spec::Watch(_) => ChannelKind::Watch,
        }
    }

    /// Whether a call is of the other kind of channel.
    pub fn is_of_other_kind(&self, call: &ChanCall<V>) -> bool
//~         ensures { result ≡ strays_at (spec_kind self.now) call.now }
    {
        match (self, call) {
            (Spec::Broadcast(_), ChanCall::B(_)) => false,
            (Spec::Watch(_), ChanCall::W(_)) => false,
            _ => true,
        }
    }

    /// Whether it is a broadcast with a capacity of 0 or above 65,536.
    pub fn has_bad_capacity(&self) -> bool
//~         ensures { result ≡ has_bad_capacity self.now }
    {
        match self {
            Spec::Broadcast(capacity) => *capacity == 0 || *capacity > MOST_CAPACITY,
            Spec::Watch(_) => false,
        }
    }
}

impl<V: Payload> Spec<V> {
    /// Whether two specs are the same.
    pub fn is_same(&self, other: &Spec<V>) -> bool
//~         ensures { IsTrue result ↔ (self.now ≡ other.now) }
    {
        match (self, other) {
            (Spec::Broadcast(a), Spec::Broadcast(b)) => a == b,
            (Spec::Watch(a), Spec::Watch(b)) => a.word() == b.word(),
            _ => false,
        }
    }
}

/// Opens one channel, with sender 0 and receiver 1.
pub fn open_channel<V: Copy>(alloc: Global, spec: &Spec<V>) -> Result<Chan<V>, NoMemory>
//~     requires { has_bad_capacity spec.now ≡ false }
//~     ensures { IfOk result (λ channel. ⟦<Chan<V> as Reversible>⟧.shown channel ≡ opened_channel spec.now) }
{
    match spec {
        Spec::Broadcast(capacity) => {
            let machine = Broadcast::open(alloc, *capacity).map_err(|_| NoMemory)?;
            Ok(Chan::Broadcast(machine))
        }
        Spec::Watch(init) => Ok(Chan::Watch(Watch::open(alloc, *init)?)),
    }
}

/// Returns the index of the first channel with a bad capacity.
fn first_bad_capacity<V: Copy>(specs: &[Spec<V>]) -> Option<usize>
//~     ensures first { result ≡ position has_bad_capacity specs.now }
//~     ensures within { IfSome result (λ i. i < length specs.now) }
//~     ensures none { IsNone result → All (λ spec. has_bad_capacity spec ≡ false) specs.now }
{
    specs.iter().position(|spec| spec.has_bad_capacity())
}

/// Returns why no world can be opened from these specs, if there is a reason in them. It doesn't allocate.
pub fn refusal_of<V: Copy>(specs: &[Spec<V>]) -> Option<OpenFault>
//~     ensures refusal { result ≡ refusal specs.now }
//~     ensures good { IsNone result → All (λ spec. has_bad_capacity spec ≡ false) specs.now }
{
    if specs.is_empty() {
        return Some(OpenFault::NoChannels);
    }
    if specs.len() > MOST_CHANNELS {
        return Some(OpenFault::TooManyChannels);
    }
    first_bad_capacity(specs).map(|i| OpenFault::BadCapacity(i as u32))
}

/// Opens the channels.
fn open_all<V: Copy>(alloc: Global, specs: &[Spec<V>]) -> Result<World<V>, NoMemory>
//~     requires { All (λ spec. has_bad_capacity spec ≡ false) specs.now }
//~     ensures { IfOk result (λ world. ⟦<World<V> as Reversible>⟧.shown world ≡ opening_row specs.now) }
{
    let mut channels = Vec::with_capacity(alloc, specs.len())?;
    for spec in specs {
        channels.push_reserved(open_channel(alloc, spec)?);
    }
    Ok(Row::of(channels))
}

/// Opens a world with a channel for each spec, under the numbers 0, 1, 2, .. . Each has sender 0 and receiver 1.
pub fn open<V: Copy>(alloc: Global, specs: &[Spec<V>]) -> Result<World<V>, OpenFault>
//~     ensures refused { IfSome (refusal specs.now) (λ fault. result ≡ Err fault) }
//~     ensures opened { IfNone (refusal specs.now) (MatchResult result
//~         (λ world. ⟦<World<V> as Reversible>⟧.shown world ≡ opening_row specs.now)
//~         (λ fault. fault ≡ OpenFault.NoMemory)) }
//~     ensures light { IfOk result (λ world. ⟦<World<V> as Reversible>⟧.weigh (⟦<World<V> as Reversible>⟧.shown world) ≤ 2) }
{
    if let Some(fault) = refusal_of(specs) {
        return Err(fault);
    }
    Ok(open_all(alloc, specs)?)
}
impl core::fmt::Display for OpenFault { //+
    fn fmt(&self, f: &mut core::fmt::Formatter<'_>) -> core::fmt::Result { //+
        match self { //+
            OpenFault::NoChannels => write!(f, "no channels"), //+
            OpenFault::TooManyChannels => write!(f, "too many channels"), //+
            OpenFault::BadCapacity(f0, ..) => write!(f, "bad capacity of channel {f0}"), //+
            OpenFault::NoMemory => write!(f, "no memory"), //+
        } //+
    } //+
} //+
impl core::error::Error for OpenFault {} //+
