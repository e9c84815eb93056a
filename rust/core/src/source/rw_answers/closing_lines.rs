//! The closings of a run as text.
// From crates/rw_answers/src/closing_lines.rt, with its contracts as comments. //+
use crate::shim::Vec; //+

//~ ghost use Rattle.std.specs.Prelude.{◌≡◌, ◌++◌, OnOk};
//~ ghost use Rattle.std.specs.List.{flat_map};
//~ ghost use Rattle.rw_answers.specs.ClosingLines.{IsClosingText, closing_line, late_line};
//~ ghost use Rattle.rw_answers.specs.Texts.{Appended};

use crate::source::rw_answers::lines::{push_number_or_dash, push_with_number};
use crate::source::rw_findings::{Closing, Closings, LateReader, closings_of};
use crate::source::rw_journal::Run;
use crate::source::rw_law::NoMemory;
use crate::shim::alloc::{AllocError, Global};

/// Appends the line of a closing.
//~ #[tactic(auto, unfolding(crate::specs::ClosingLines::closing_line))]
fn push_closing(out: &mut Vec<u8>, closing: &Closing) -> Result<(), AllocError>
//~     ensures { OnOk result (out.new.items ≡ out.old.items ++ closing_line closing.now) }
{
    push_with_number(out, b"closed ", u64::from(closing.channel))?;
    push_with_number(out, b" ", closing.place)?;
    out.extend_from_slice(b"\n")
}

/// Appends a line for each closing.
fn push_closings(out: &mut Vec<u8>, closings: &[Closing]) -> Result<(), AllocError>
//~     ensures { OnOk result (out.new.items ≡ out.old.items ++ flat_map closing_line closings.now) }
{
    for closing in closings {
        push_closing(out, closing)?;
    }
    Ok(())
}

/// Appends the line of a receiver that was there where its channel closed.
//~ #[tactic(auto, unfolding(crate::specs::ClosingLines::late_line))]
fn push_late(out: &mut Vec<u8>, late: &LateReader) -> Result<(), AllocError>
//~     ensures { OnOk result (out.new.items ≡ out.old.items ++ late_line late.now) }
{
    push_with_number(out, b"late ", u64::from(late.channel))?;
    push_with_number(out, b" ", u64::from(late.receiver))?;
    push_number_or_dash(out, late.told)?;
    push_with_number(out, b" ", late.read_on)?;
    out.extend_from_slice(b"\n")
}

/// Appends a line for each such receiver.
fn push_readers(out: &mut Vec<u8>, readers: &[LateReader]) -> Result<(), AllocError>
//~     ensures { OnOk result (out.new.items ≡ out.old.items ++ flat_map late_line readers.now) }
{
    for late in readers {
        push_late(out, late)?;
    }
    Ok(())
}

/// Appends a line for each closing of a run, and for each receiver that was there then.
pub fn push_closings_of(alloc: Global, out: &mut Vec<u8>, run: &Run<u64>) -> Result<(), NoMemory>
//~     ensures { OnOk result (Appended out.old.items out.new.items (IsClosingText run.now)) }
{
    let Closings { channels, readers } = closings_of(alloc, run)?;
    push_closings(out, &channels)?;
    push_readers(out, &readers)?;
    Ok(())
}
