//! Handles compared with others that have other numbers.
// From crates/rw_handles/src/comparing.rt, with its contracts as comments. //+
use crate::shim::Vec; //+
//~ ghost use Rattle.std.specs.Prelude.{◌≡◌, true, length, slice_get, slice_set, Some, All};
//~ ghost use Rattle.rw_handles.specs.declared.kinds.Slot.TheVariants.{Spent};
//~ ghost use Rattle.rw_handles.specs.Renaming.{IsRenaming, is_live, number_before};

use crate::source::rw_handles::kinds::Slot;

/// Whether live handles are all those of a second table, where they have these numbers: `numbers[h]` for handle h. Returns
/// false also where one of the first handles was dropped.
//~ #[tactic(auto, using(crate::proofs::Taking::none_taken, crate::proofs::Taking::one_more_in_order, crate::proofs::Taking::all_taken))]
pub fn is_renaming(first: &[Slot<u64>], second: Vec<Slot<u64>>, numbers: &[u32]) -> bool
//~     ensures { result ≡ true → IsRenaming (number_before numbers.now (length second.items)) first.now second.items }
{
    if numbers.len() != first.len() {
        return false;
    }
    let mut left = second;
    for (h, slot) in first.iter().enumerate() {
        if !take(&mut left, numbers[h], *slot) {
            return false;
        }
    }
    are_spent(&left)
}

/// Drops the handle of this number, where it is alive and stands in this slot. Returns whether it does.
fn take(left: &mut Vec<Slot<u64>>, number: u32, slot: Slot<u64>) -> bool
//~     ensures stood { result ≡ true → slice_get left.old.items number ≡ Some slot }
//~     ensures live { result ≡ true → is_live slot ≡ true }
//~     ensures dropped { result ≡ true → left.new.items ≡ slice_set left.old.items number Spent }
{
    match (left.get(number as usize).copied(), slot) {
        (Some(Slot::Live(kind, x)), Slot::Live(own, y)) => {
            if kind != own || x != y {
                return false;
            }
            left[number as usize] = Slot::Spent;
            true
        }
        _ => false,
    }
}

/// Whether all handles are dropped.
//~ #[tactic(auto, using(crate::proofs::Taking::one_more_spent))]
fn are_spent(slots: &[Slot<u64>]) -> bool
//~     ensures { result ≡ true → All (λ slot. slot ≡ Spent) slots.now }
{
    for slot in slots {
        if let Slot::Live(_, _) = slot {
            return false;
        }
    }
    true
}
