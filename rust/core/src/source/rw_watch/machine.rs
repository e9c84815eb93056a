//! The machine of a watch channel.
// From crates/rw_watch/src/machine.rt, with its contracts as comments. //+
//~ ghost use Rattle.std.specs.Prelude.{◌≡◌, IfOk};
//~ ghost use Rattle.rw_watch.specs.Record.{opening_record};
//~ ghost use Rattle.rw_watch.specs.Shown.{shown};

mod alike;
mod readers;
mod renumber;
mod reversible;
mod steps;

use crate::source::rw_handles::Table;
use crate::source::rw_law::NoMemory;
use crate::shim::alloc::Global;
//~ use std::marker::Model;

/// A watch channel: its value, how many changes the receivers were notified of, and its handles with the receivers' marks.
//~ #[derive(Drop)]
pub struct Watch<V: Copy> {
    value: V,
    version: u64,
    limit: u64,
    handles: Table<Option<u64>>,
}

//~ impl<V: Copy> Model for Watch<V> {
//~     ghost use Rattle.rw_watch.specs.Machine.{Machine};
//~
//~     ghost Value = { Machine V };
//~
//~     ghost use Rattle.rw_watch.specs.Inside.{HasRoom, machine_of};
//~
//~     ghost view = { machine_of };
//~
//~     ghost invariant = { HasRoom };
//~ }

impl<V: Copy> Watch<V> {
    /// Opens a channel with this value, sender 0, and receiver 1, which has seen the value.
    pub fn open(alloc: Global, init: V) -> Result<Watch<V>, NoMemory>
//~         ensures { IfOk result (λ machine. machine.shown ≡ shown (opening_record init)) }
    {
        Ok(Watch {
            value: init,
            version: 0,
            limit: 2,
            handles: Table::of_two(alloc, None, Some(0))?,
        })
    }

    /// Returns a copy, which shows the same and has as much room. If the allocation fails, there is none.
    pub fn copied(&self, alloc: Global) -> Result<Watch<V>, NoMemory>
//~         ensures { IfOk result (λ copy. copy ≡ self.now) }
    {
        Ok(Watch {
            value: self.value,
            version: self.version,
            limit: self.limit,
            handles: self.handles.copied(alloc)?,
        })
    }
}
