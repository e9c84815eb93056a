//! The value of a watch, which its channel stores beside a watch of numbers.
// From crates/rw_values/src/watched.rt, with its contracts as comments. //+
//~ ghost use Rattle.std.specs.Prelude.{◌≡◌};
//~ ghost use Rattle.rw_values.specs.Watched.{after_send, returned_by_send};

use crate::shim::mem;

/// Stores a value that was sent, if the watch replied that it is stored. Then the value before it takes its place, to be
/// dropped. Else nothing changes, and the value that was sent goes back to its sender.
#[inline(always)]
pub fn store_sent<V>(stored: &mut V, value: &mut V, is_stored: bool)
//~     ensures stored { stored.new ≡ after_send stored.old value.old is_stored }
//~     ensures returned { value.new ≡ returned_by_send stored.old value.old is_stored }
{
    if is_stored {
        mem::swap(stored, value);
    }
}
