//! The least position of a receiver.
// From crates/rw_broadcast/src/least.rt, with its contracts as comments. //+
//~ ghost use Rattle.std.specs.Prelude.{◌≡◌};
//~ ghost use Rattle.rw_handles.specs.declared.kinds.Kind.TheVariants.{Receiver};
//~ ghost use Rattle.rw_handles.specs.Slots.{values};
//~ ghost use Rattle.rw_broadcast.specs.Arithmetic.{least};
//~ ghost use Rattle.rw_broadcast.specs.Machine.{least_with};

use crate::source::rw_handles::{Kind, Slot};

/// Returns the least position of a live receiver, if there is one.
//~ #[tactic(auto, using(crate::proofs::LeastPosition::least_more))]
pub fn least_position(slots: &[Slot<u64>]) -> Option<u64>
//~     ensures { result ≡ least (values Receiver slots.now) }
{
    let mut least: Option<u64> = None;
    for slot in slots {
        least = lesser(least, slot);
    }
    least
}

/// Returns the lesser of a position and that of one more slot.
fn lesser(least: Option<u64>, slot: &Slot<u64>) -> Option<u64>
//~     ensures { result ≡ least_with least slot.now }
{
    match slot {
        Slot::Live(Kind::Receiver, position) => match least {
            None => Some(*position),
            Some(other) => Some(other.min(*position)),
        },
        _ => least,
    }
}
