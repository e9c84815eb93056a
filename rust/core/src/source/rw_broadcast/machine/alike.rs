//! Whether two broadcast channels reply alike.
// From crates/rw_broadcast/src/machine/alike.rt, with its contracts as comments. //+
use crate::shim::Vec; //+
//~ ghost use Rattle.std.specs.Prelude.{◌≡◌, true, length, IfOk};
//~ ghost use Rattle.rw_handles.specs.Renaming.{number_before};
//~ ghost use Rattle.rw_broadcast.specs.Alike.{IsAlike, unread_slot, unread_slots};

use super::Broadcast;
use crate::source::rw_handles::{Kind, Slot, is_renaming};
use crate::source::rw_law::NoMemory;
use crate::shim::alloc::Global;

impl Broadcast<u64> {
    /// Whether another channel replies as this one does. It retains the same values, and the handle of number h here has the
    /// number `numbers[h]` there, is of the same kind, and has as many values to receive. By the law, each later call has the same
    /// reply then, but for the number of a new handle. Returns false also where a handle of this channel was dropped.
//~     #[tactic(auto, using(crate::proofs::Comparing::alike_by_slots))]
    pub fn is_alike(
        &self,
        alloc: Global,
        other: &Broadcast<u64>,
        numbers: &[u32],
    ) -> Result<bool, NoMemory>
//~         ensures { IfOk result (λ alike. alike ≡ true → IsAlike (number_before numbers.now (length other.now.shown.slots)) self.now.shown other.now.shown) }
    {
        if !self.retains_same(other) {
            return Ok(false);
        }
        let here = self.unread_slots(alloc)?;
        let there = other.unread_slots(alloc)?;
        Ok(is_renaming(&here, there, numbers))
    }

    /// Whether another channel retains the same values, and may retain as many.
//~     #[tactic(auto, using(crate::proofs::Comparing::none_same, crate::proofs::Comparing::one_more_same, crate::proofs::Comparing::all_same))]
    fn retains_same(&self, other: &Broadcast<u64>) -> bool
//~         ensures capacity { result ≡ true → other.now.shown.capacity ≡ self.now.shown.capacity }
//~         ensures window { result ≡ true → other.now.shown.window ≡ self.now.shown.window }
    {
        let retained = self.retained();
        if self.capacity() != other.capacity() || retained != other.retained() {
            return false;
        }
        for i in 0..retained {
            if self.window(i) != other.window(i) {
                return false;
            }
        }
        true
    }

    /// Returns how many values are retained.
    fn retained(&self) -> u64
//~         ensures { result ≡ length self.now.shown.window }
    {
        self.values.count().min(self.values.capacity())
    }

    /// Returns the handles, each receiver with how many values it has yet to receive.
//~     #[tactic(auto, using(crate::proofs::Comparing::one_more_unread))]
    fn unread_slots(&self, alloc: Global) -> Result<Vec<Slot<u64>>, NoMemory>
//~         ensures { IfOk result (λ slots. slots.items ≡ unread_slots self.now.shown) }
    {
        let sent = self.sent();
        let mut slots = Vec::new(alloc);
        for slot in self.handles.slots() {
            slots.push(unread_slot(sent, *slot))?;
        }
        Ok(slots)
    }
}

/// Returns the slot, with how many values a receiver has yet to receive in place of its position.
fn unread_slot(sent: u64, slot: Slot<u64>) -> Slot<u64>
//~     ensures { result ≡ unread_slot sent slot }
{
    match slot {
        Slot::Live(Kind::Receiver, position) => Slot::Live(
            Kind::Receiver,
            sent.saturating_sub(position),
        ),
        other => other,
    }
}
