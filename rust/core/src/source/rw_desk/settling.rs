//! Receipts compared with the journal of a run.
// From crates/rw_desk/src/settling.rt, with its contracts as comments. //+

//~ ghost use Rattle.std.specs.Prelude.{◌≡◌, ◌↔◌, Some, slice_get, IsTrue};
//~ ghost use Rattle.rw_desk.specs.Settling.{IsFirstDifference, projection, receipt_of};

use crate::source::rw_desk::kept::Kept;
use crate::source::rw_desk::same_calls::is_same_call;
use crate::source::rw_journal::{Run, Same};
use crate::source::rw_law::{Entry, Payload};
use crate::source::rw_world::World;

/// Whether this is the receipt of an entry.
fn is_receipt<V: Payload>(kept: &Kept<V>, entry: &Entry<World<V>>) -> bool
//~     ensures { IsTrue result ↔ (kept.now ≡ receipt_of entry.now) }
{
    kept.channel == entry.call.channel
        && kept.stamp == entry.stamp
        && is_same_call(&kept.call, &entry.call.call)
        && kept.reply.is_same(&entry.reply)
}

/// Whether the receipt of this number is that of an entry.
pub(crate) fn is_next<V: Payload>(kept: &[Kept<V>], number: usize, entry: &Entry<World<V>>) -> bool
//~     ensures { IsTrue result ↔ (slice_get kept.now number ≡ Some (receipt_of entry.now)) }
{
    match kept.get(number) {
        Some(receipt) => is_receipt(receipt, entry),
        None => false,
    }
}

/// Returns the number of the first receipt at which these and an actor's entries differ, or `None` if they are the same. It
/// allocates nothing.
pub fn compare<V: Payload>(run: &Run<V>, actor: u32, kept: &[Kept<V>]) -> Option<u64>
//~     ensures { IsFirstDifference kept.now (projection actor run.now.entries) result }
{
    let mut number = 0;
    let entries = run.entries();
    for entry in entries {
        if entry.actor == actor {
            if !is_next(kept, number, entry) {
                return Some(number as u64);
            }
            number += 1;
        }
    }
    if number < kept.len() {
        Some(number as u64)
    } else {
        None
    }
}
