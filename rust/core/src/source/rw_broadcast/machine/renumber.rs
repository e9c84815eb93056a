//! Other numbers for the live handles of a broadcast channel.
// From crates/rw_broadcast/src/machine/renumber.rt, with its contracts as comments. //+
use crate::shim::Vec; //+
//~ ghost use Rattle.std.specs.Prelude.{◌≡◌, IfOk, OnErr};
//~ ghost use Rattle.rw_broadcast.specs.Renaming.{IsRenumbered};

use super::Broadcast;
use crate::source::rw_law::NoMemory;
use crate::shim::alloc::Global;

impl<V: Copy> Broadcast<V> {
    /// Takes the numbers of dropped handles out. The live handles stay in order, and get the numbers 0, 1, 2, .. Returns the
    /// number that each had before. By the law of renaming, each later call has the same reply as with the numbers before, but
    /// for the number of a new handle. At an error nothing has changed.
    pub fn renumber(&mut self, alloc: Global) -> Result<Vec<u32>, NoMemory>
//~         ensures renumbered { IfOk result (λ before. IsRenumbered before.items self.old.shown self.new.shown) }
//~         ensures limit { self.new.limit ≡ self.old.limit }
//~         ensures same { OnErr result (self.new ≡ self.old) }
    {
        self.handles.renumber(alloc)
    }
}
