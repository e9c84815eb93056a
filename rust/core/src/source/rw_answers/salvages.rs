//! Journals that were cut off.
// From crates/rw_answers/src/salvages.rt, with its contracts as comments. //+
use crate::shim::Vec; //+

//~ ghost use Rattle.std.specs.Prelude.{◌≡◌, ◌++◌, IfOk, OnOk};
//~ ghost use Rattle.rw_answers.specs.Salvages.{kept_line, salvage_page};

use crate::source::rw_answers::pages::fault_page;
use crate::source::rw_law::NoMemory;
use crate::source::rw_lines::push_number;
use crate::source::rw_text::TextFault;
use crate::shim::alloc::{AllocError, Global};

/// Appends how many bytes were kept.
fn push_kept(out: &mut Vec<u8>, count: u64) -> Result<(), AllocError>
//~     ensures { OnOk result (out.new.items ≡ out.old.items ++ kept_line count) }
{
    out.extend_from_slice(b"kept ")?;
    push_number(out, count)?;
    out.extend_from_slice(b" bytes\n")
}

/// Returns how many bytes the whole lines of a journal text have, and the journal text of their run. Or it returns the text's
/// first fault.
pub fn salvage_page(alloc: Global, journal: &[u8]) -> Result<Vec<u8>, NoMemory>
//~     ensures { IfOk result (λ text. text.items ≡ salvage_page journal.now) }
{
    let (run, count) = match crate::source::rw_text::salvage::<u64>(alloc, journal) {
        Ok(salvaged) => salvaged,
        Err(TextFault::NoMemory) => return Err(NoMemory),
        Err(fault) => return fault_page(alloc, fault),
    };
    let mut text = Vec::new(alloc);
    push_kept(&mut text, count)?;
    match crate::source::rw_text::write(&run, &mut text) {
        Ok(_) => Ok(text),
        Err(_) => Err(NoMemory),
    }
}
