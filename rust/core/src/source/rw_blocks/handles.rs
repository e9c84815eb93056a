//! Handles in the lists of a channel's lines.
// From crates/rw_blocks/src/handles.rt, with its contracts as comments. //+
use crate::shim::Vec; //+

//~ ghost use Rattle.std.specs.Prelude.{◌≡◌, ◌++◌, OnOk};
//~ ghost use Rattle.rw_blocks.specs.Handles.{handle_word};

use crate::source::rw_blocks::labels::push_with_number;
use crate::source::rw_handles::Kind;
use crate::shim::alloc::AllocError;

/// Appends the number of a handle if it is alive and of the wanted kind. `own` is its kind, if it is alive.
pub fn push_handle(
    out: &mut Vec<u8>,
    wanted: Kind,
    h: u32,
    own: Option<Kind>,
) -> Result<(), AllocError>
//~     ensures { OnOk result (out.new.items ≡ out.old.items ++ handle_word wanted h own) }
{
    match own {
        Some(kind) if kind == wanted => push_with_number(out, b" ", u64::from(h)),
        _ => Ok(()),
    }
}
