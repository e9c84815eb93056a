//! The lines that a session writes about places. Each function appends to a buffer.
// From crates/rw_console/src/text.rt, with its contracts as comments. //+
use crate::shim::Vec; //+

//~ ghost use Rattle.std.specs.Prelude.{◌≡◌, ◌++◌, OnOk};
//~ ghost use Rattle.rw_console.specs.Texts.{hit_line, place_line, refusal};

use crate::source::rw_lines::push_number;
use crate::source::rw_navigator::OutOfRange;
use crate::shim::alloc::AllocError;

pub fn push_place(out: &mut Vec<u8>, len: u64, place: u64) -> Result<(), AllocError>
//~     ensures { OnOk result (out.new.items ≡ out.old.items ++ place_line len place) }
{
    out.extend_from_slice(b"place ")?;
    push_number(out, place)?;
    out.extend_from_slice(b" of ")?;
    push_number(out, len)?;
    out.extend_from_slice(b"\n")
}

/// Appends `out of range, ` if a move was refused.
pub fn push_refusal(out: &mut Vec<u8>, answer: Result<(), OutOfRange>) -> Result<(), AllocError>
//~     ensures { OnOk result (out.new.items ≡ out.old.items ++ refusal answer) }
{
    match answer {
        Ok(()) => Ok(()),
        Err(_) => out.extend_from_slice(b"out of range, "),
    }
}

/// Appends the line of a search from a place: the hit, or that there is none.
pub fn push_hit(
    out: &mut Vec<u8>,
    len: u64,
    place: u64,
    found: Option<u64>,
) -> Result<(), AllocError>
//~     ensures { OnOk result (out.new.items ≡ out.old.items ++ hit_line len place found) }
{
    match found {
        None => {
            out.extend_from_slice(b"no hit, ")?;
            push_place(out, len, place)
        }
        Some(hit) => {
            out.extend_from_slice(b"hit ")?;
            push_number(out, hit)?;
            out.extend_from_slice(b" of ")?;
            push_number(out, len)?;
            out.extend_from_slice(b"\n")
        }
    }
}
