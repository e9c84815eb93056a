//! Words beside a number, and the last word of a channel's first line.
// From crates/rw_blocks/src/labels.rt, with its contracts as comments. //+
use crate::shim::Vec; //+

//~ ghost use Rattle.std.specs.Prelude.{◌≡◌, ◌++◌, OnOk};
//~ ghost use Rattle.rw_blocks.specs.Labels.{with_number, open_or_closed};

use crate::source::rw_lines::push_number;
use crate::shim::alloc::AllocError;

/// Appends a number behind its label.
//~ #[tactic(auto, unfolding(crate::specs::Labels::with_number))]
pub fn push_with_number(out: &mut Vec<u8>, label: &[u8], n: u64) -> Result<(), AllocError>
//~     ensures { OnOk result (out.new.items ≡ out.old.items ++ with_number label.now n) }
{
    out.extend_from_slice(label)?;
    push_number(out, n)
}

/// Returns the last word of a channel's first line.
pub fn open_or_closed(is_closed: bool) -> &'static str
//~     ensures { result.now ≡ open_or_closed is_closed }
{
    if is_closed { " closed\n" } else { " open\n" }
}
