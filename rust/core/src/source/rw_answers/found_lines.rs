//! All that is found in a run as text.
// From crates/rw_answers/src/found_lines.rt, with its contracts as comments. //+
use crate::shim::Vec; //+

//~ ghost use Rattle.std.specs.Prelude.{IfOk, OnOk};
//~ ghost use Rattle.rw_answers.specs.FoundLines.{IsFoundText};
//~ ghost use Rattle.rw_answers.specs.Texts.{Appended};

use crate::source::rw_answers::closing_lines::push_closings_of;
use crate::source::rw_answers::life_lines::push_lives_of;
use crate::source::rw_answers::total_lines::push_totals_of;
use crate::source::rw_answers::value_lines::push_values_of;
use crate::source::rw_journal::Run;
use crate::source::rw_law::NoMemory;
use crate::shim::alloc::Global;

/// Appends all that is found in a run.
fn push_found(alloc: Global, out: &mut Vec<u8>, run: &Run<u64>) -> Result<(), NoMemory>
//~     ensures { OnOk result (Appended out.old.items out.new.items (IsFoundText run.now)) }
{
    push_closings_of(alloc, out, run)?;
    push_totals_of(alloc, out, run)?;
    push_lives_of(alloc, out, run)?;
    push_values_of(alloc, out, run)?;
    Ok(())
}

/// Returns the lines of all that is found in a run.
pub fn found_text(alloc: Global, run: &Run<u64>) -> Result<Vec<u8>, NoMemory>
//~     ensures { IfOk result (λ text. IsFoundText run.now text.items) }
{
    let mut text = Vec::new(alloc);
    push_found(alloc, &mut text, run)?;
    Ok(text)
}
