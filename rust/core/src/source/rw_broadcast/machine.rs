//! The machine of a broadcast channel.
// From crates/rw_broadcast/src/machine.rt, with its contracts as comments. //+
//~ ghost use Rattle.std.specs.Prelude.{◌≡◌, ◌<◌, ◌≤◌, ◌↔◌, ◌⊎◌, IfOk};
//~ ghost use Rattle.rw_ring.specs.declared.ring.TheConstants.{MOST_CAPACITY};
//~ ghost use Rattle.rw_broadcast.specs.Arithmetic.{retained_capacity};
//~ ghost use Rattle.rw_broadcast.specs.Record.{opening_record};
//~ ghost use Rattle.rw_broadcast.specs.Shown.{shown};

mod alike;
mod dozing;
mod readers;
mod renumber;
mod reversible;
mod steps;

use crate::source::rw_handles::Table;
use crate::source::rw_law::NoMemory;
use crate::source::rw_ring::{MOST_CAPACITY, Ring};
use crate::shim::alloc::Global;
//~ use std::marker::Model;
//~ use thiserror::Error;

/// A broadcast channel: its retained values and its handles.
//~ #[derive(Drop)]
pub struct Broadcast<V: Copy> {
    values: Ring<V>,
    handles: Table<u64>,
    limit: u64,
}

//~ impl<V: Copy> Model for Broadcast<V> {
//~     ghost use Rattle.rw_broadcast.specs.Machine.{Machine};
//~
//~     ghost Value = { Machine V };
//~
//~     ghost use Rattle.rw_broadcast.specs.Inside.{HasRoom, machine_of};
//~
//~     ghost view = { machine_of };
//~
//~     ghost invariant = { HasRoom };
//~ }

/// Why a channel wasn't opened.
#[derive(Clone, Copy, Debug, PartialEq, Eq/*~, Error~*/)]
pub enum OpenFault {
    /// The requested capacity is 0 or above 65,536.
//~     #[error("bad capacity")]
    BadCapacity,
    /// An allocation failed.
//~     #[error("no memory")]
    NoMemory,
}

impl From<NoMemory> for OpenFault {
//~     ghost use Rattle.std.specs.Prelude.{◌≡◌};
//~     ghost use Rattle.rw_broadcast.specs.declared.machine.OpenFault.{OpenFault};

//~     ghost from_gives = { λ _ fault. fault ≡ OpenFault.NoMemory };

    fn from(_error: NoMemory) -> OpenFault {
        OpenFault::NoMemory
    }
}

impl<V: Copy> Broadcast<V> {
    /// Opens a channel with sender 0 and receiver 1. It retains as many values as the least power of two that is at least
    /// this capacity.
    pub fn open(alloc: Global, capacity: u32) -> Result<Broadcast<V>, OpenFault>
//~         ensures ok { IfOk result (λ machine. machine.shown ≡ shown (opening_record capacity)) }
//~         ensures bad { (result ≡ Err OpenFault.BadCapacity) ↔ ((capacity ≡ 0) ⊎ (MOST_CAPACITY < capacity)) }
    {
        if capacity == 0 || capacity > MOST_CAPACITY {
            return Err(OpenFault::BadCapacity);
        }
        let handles = Table::of_two(alloc, 0, 0)?;
        let values = Ring::new(alloc, retained_capacity(capacity))?;
        Ok(Broadcast {
            values,
            handles,
            limit: 2,
        })
    }

    /// Returns a copy, which shows the same and has as much room. If an allocation fails, there is none.
    pub fn copied(&self, alloc: Global) -> Result<Broadcast<V>, NoMemory>
//~         ensures { IfOk result (λ copy. copy ≡ self.now) }
    {
        let handles = self.handles.copied(alloc)?;
        let values = self.values.copied(alloc)?;
        Ok(Broadcast {
            values,
            handles,
            limit: self.limit,
        })
    }
}

/// Returns how many values are retained where this many are requested.
fn retained_capacity(asked: u32) -> u64
//~     requires some { 0 < asked }
//~     requires small { asked ≤ MOST_CAPACITY }
//~     ensures capacity { result ≡ retained_capacity asked }
//~     ensures some_capacity { 0 < result }
//~     ensures most { result ≤ MOST_CAPACITY }
{
    u64::from(asked).next_power_of_two()
}
impl core::fmt::Display for OpenFault { //+
    fn fmt(&self, f: &mut core::fmt::Formatter<'_>) -> core::fmt::Result { //+
        match self { //+
            OpenFault::BadCapacity => write!(f, "bad capacity"), //+
            OpenFault::NoMemory => write!(f, "no memory"), //+
        } //+
    } //+
} //+
impl core::error::Error for OpenFault {} //+
