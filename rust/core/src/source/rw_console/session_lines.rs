//! The lines that a session writes about its script. The program tells them of a file.
// From crates/rw_console/src/session_lines.rt, with its contracts as comments. //+
use crate::shim::{String, format}; //+

//~ ghost use Rattle.std.specs.Prelude.{◌≡◌, Some, string_bytes, IfOk};
//~ ghost use Rattle.rw_console.specs.SessionReport.{fault_line, waiting_line};

use crate::source::rw_script::ScriptFault;
use crate::shim::alloc::{AllocError, Global};

/// Returns the line of a script's fault: its text and an LF.
pub fn fault_line(alloc: Global, fault: ScriptFault) -> Result<String, AllocError>
//~     ensures { IfOk result (λ line. string_bytes line ≡ fault_line fault) }
{
    format!(in alloc; "{fault}\n")
}

/// Returns the line that says which line of the script would wait.
pub fn waiting_line(alloc: Global, number: u64) -> Result<String, AllocError>
//~     ensures { IfOk result (λ line. string_bytes line ≡ waiting_line (Some number)) }
{
    format!(in alloc; "would wait {number}\n")
}
