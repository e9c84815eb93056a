//! Whether two watch channels reply alike.
// From crates/rw_watch/src/machine/alike.rt, with its contracts as comments. //+
use crate::shim::Vec; //+
//~ ghost use Rattle.std.specs.Prelude.{◌≡◌, true, length, map, IfOk};
//~ ghost use Rattle.rw_handles.specs.Renaming.{number_before};
//~ ghost use Rattle.rw_watch.specs.Alike.{IsAlike, seen_slot};

use super::Watch;
use crate::source::rw_handles::{Slot, is_renaming};
use crate::source::rw_law::NoMemory;
use crate::shim::alloc::Global;

impl Watch<u64> {
    /// Whether another channel replies as this one does. It has the same value, and the handle of number h here has the number
    /// `numbers[h]` there, is of the same kind, and has seen the value in both or in neither. By the law, each later call has the
    /// same reply then, but for the number of a new handle. Returns false also where a handle of this channel was dropped.
    pub fn is_alike(
        &self,
        alloc: Global,
        other: &Watch<u64>,
        numbers: &[u32],
    ) -> Result<bool, NoMemory>
//~         ensures { IfOk result (λ alike. alike ≡ true → IsAlike (number_before numbers.now (length other.now.shown.slots)) self.now.shown other.now.shown) }
    {
        if self.value() != other.value() {
            return Ok(false);
        }
        let here = self.seen_slots(alloc)?;
        let there = other.seen_slots(alloc)?;
        Ok(is_renaming(&here, there, numbers))
    }

    /// Returns the handles, each with 1 where it is a receiver that has seen the value, or else with 0.
//~     #[tactic(auto, using(crate::proofs::Comparing::one_more_seen))]
    fn seen_slots(&self, alloc: Global) -> Result<Vec<Slot<u64>>, NoMemory>
//~         ensures { IfOk result (λ slots. slots.items ≡ map (seen_slot self.now.shown.version) self.now.shown.slots) }
    {
        let mut slots = Vec::new(alloc);
        for slot in self.handles.slots() {
            slots.push(seen_slot(self.version(), *slot))?;
        }
        Ok(slots)
    }
}

/// Returns the slot, with 1 in place of the mark of a receiver that has seen the value of this version, or else with 0.
fn seen_slot(version: u64, slot: Slot<Option<u64>>) -> Slot<u64>
//~     ensures { result ≡ seen_slot version slot }
{
    match slot {
        Slot::Live(kind, Some(mark)) => Slot::Live(kind, u64::from(mark == version)),
        Slot::Live(kind, None) => Slot::Live(kind, 0),
        Slot::Spent => Slot::Spent,
    }
}
