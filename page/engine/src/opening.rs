//! What is opened: a journal text, or a script, whose run has one.

use crate::engine::{Fault, no_memory};
use crate::shim::alloc::Global;
use crate::source::rw_console::fault_line;
use crate::source::rw_script::{Script, ScriptFault, is_mark, run_one};
use crate::source::rw_text;

/// With this each journal text begins.
const JOURNAL_BEGINS: &[u8] = b"ttd-journal";

pub(crate) fn is_journal(text: &[u8]) -> bool {
    text.starts_with(JOURNAL_BEGINS)
}

/// The run of a script: its journal text, and the number of the line with the first call that would
/// wait, if there is one.
pub(crate) struct Played {
    pub(crate) journal: Vec<u8>,
    pub(crate) waits: Option<u64>,
}

/// Runs the script of a session's text, which ends before the line `---`.
///
/// # Errors
///
/// Returns the line of its first fault.
pub(crate) fn play(text: &[u8]) -> Result<Played, Fault> {
    let script = Script::read(Global, script_part(text)).map_err(said)?;
    let (run, waits) = run_one(Global, &script).map_err(no_memory)?;
    let mut journal = crate::shim::Vec::new(Global);
    rw_text::write(&run, &mut journal).map_err(no_memory)?;
    Ok(Played {
        journal: journal.into_iter().collect(),
        waits,
    })
}

fn said(fault: ScriptFault) -> Fault {
    match fault_line(Global, fault) {
        Ok(line) => Fault(line.as_str().trim_end().to_string()),
        Err(refused) => no_memory(refused),
    }
}

/// Returns the bytes before the line `---`.
fn script_part(text: &[u8]) -> &[u8] {
    let mut start = 0;
    for line in text.split_inclusive(|byte| *byte == b'\n') {
        if is_mark(line.strip_suffix(b"\n").unwrap_or(line)) {
            return &text[..start];
        }
        start += line.len();
    }
    text
}
