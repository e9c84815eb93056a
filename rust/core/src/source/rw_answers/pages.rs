//! The debugger over bytes in memory.
// From crates/rw_answers/src/pages.rt, with its contracts as comments. //+
use crate::shim::Vec; //+

//~ ghost use Rattle.std.specs.Prelude.{◌≡◌, ◌<◌, length, IfOk, IsErrOf, OnOk};
//~ ghost use Rattle.rw_console.specs.SessionReport.{report};
//~ ghost use Rattle.rw_answers.specs.Pages.{IsWithin, page_of};
//~ ghost use Rattle.rw_text.specs.Faults.{text_fault_line};

use crate::source::rw_console::{MOST_BYTES, debug, session};
use crate::source::rw_law::NoMemory;
use crate::source::rw_lines::StreamFault;
use crate::source::rw_text::TextFault;
use crate::shim::alloc::Global;

/// Returns the line of a journal text's first fault.
pub fn fault_page(alloc: Global, fault: TextFault) -> Result<Vec<u8>, NoMemory>
//~     ensures { IfOk result (λ line. line.items ≡ text_fault_line fault) }
{
    let line = fault.line(alloc)?;
    Ok(line.into_bytes())
}

/// Returns what the commands write over the run of a journal text, or that text's first fault. Only if more than `MOST_BYTES` bytes
/// of commands would have to be read, it returns `TooMuch`.
pub fn debug_page(alloc: Global, journal: &[u8], commands: &[u8]) -> Result<Vec<u8>, StreamFault>
//~     ensures text { IfOk result (λ text. text.items ≡ page_of journal.now commands.now) }
//~     ensures limit { OnOk result (IsWithin MOST_BYTES (page_of journal.now) commands.now) }
//~     ensures above { IsErrOf result StreamFault.TooMuch → MOST_BYTES < length commands.now }
{
    let run = match crate::source::rw_text::read(alloc, journal) {
        Ok(run) => run,
        Err(TextFault::NoMemory) => return Err(StreamFault::NoMemory),
        Err(fault) => return Ok(fault_page(alloc, fault)?),
    };
    let mut text = Vec::new(alloc);
    let mut input = commands;
    debug(alloc, &run, &mut input, &mut text)?;
    Ok(text)
}

/// Returns what a session writes. Only if more than `MOST_BYTES` bytes would have to be read, it returns `TooMuch`.
pub fn session_page(alloc: Global, bytes: &[u8]) -> Result<Vec<u8>, StreamFault>
//~     ensures text { IfOk result (λ text. text.items ≡ report bytes.now) }
//~     ensures limit { OnOk result (IsWithin MOST_BYTES report bytes.now) }
//~     ensures above { IsErrOf result StreamFault.TooMuch → MOST_BYTES < length bytes.now }
{
    let mut text = Vec::new(alloc);
    let mut input = bytes;
    session(alloc, &mut input, &mut text)?;
    Ok(text)
}
