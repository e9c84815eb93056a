//! Reads a file as a script or as a journal text.
// From crates/rw_program/src/reading.rt, with its contracts as comments. //+

//~ ghost use Rattle.std.specs.Prelude.{IfOk, IfErr, ◌≡◌, Ok};
//~ ghost use Rattle.rw_law.specs.Numbers.{numbers};
//~ ghost use Rattle.rw_lines.specs.Lines.{lines};
//~ ghost use Rattle.rw_script.specs.Script.{script_in};
//~ ghost use Rattle.rw_text.specs.Reading.{reading_of};
//~ ghost use Rattle.rw_text.specs.Salvaging.{salvage_of};
//~ ghost use Rattle.rw_program.specs.Contents.{HasNoScript, HasNoText, HasScript, HasText, IsNoScript, IsNoText};

use crate::source::rw_program::inputs::read_whole;
use crate::source::rw_journal::Run;
use crate::source::rw_lines::StreamFault;
use crate::source::rw_script::{Script, ScriptFault, ScriptFaultKind};
use crate::source::rw_text::TextFault;
use crate::shim::alloc::Global;
use crate::shim::io::Read;

/// Why a file is refused.
#[derive(Clone, Copy)]
pub enum FileFault {
    /// It can't be read whole, or memory ran out.
    Stream(StreamFault),
    /// It isn't a script.
    Script(ScriptFault),
    /// It isn't a run's journal text.
    Text(TextFault),
}

/// Reads these bytes as a script.
fn script_of(alloc: Global, bytes: &[u8]) -> Result<Script, FileFault>
//~     ensures script { IfOk result (λ script. script_in (lines bytes.now) ≡ Ok script) }
//~     ensures refused { IfErr result (λ why. IsNoScript bytes.now why) }
{
    match Script::read(alloc, bytes) {
        Ok(script) => Ok(script),
        Err(fault) => match fault.kind {
            ScriptFaultKind::NoMemory => Err(FileFault::Stream(StreamFault::NoMemory)),
            _ => Err(FileFault::Script(fault)),
        },
    }
}

/// Returns the run whose journal text these bytes are.
fn run_of(alloc: Global, bytes: &[u8]) -> Result<Run<u64>, FileFault>
//~     ensures run { IfOk result (λ run. reading_of numbers bytes.now ≡ Ok run) }
//~     ensures refused { IfErr result (λ why. IsNoText (reading_of numbers) bytes.now why) }
{
    match crate::source::rw_text::read(alloc, bytes) {
        Ok(run) => Ok(run),
        Err(TextFault::NoMemory) => Err(FileFault::Stream(StreamFault::NoMemory)),
        Err(fault) => Err(FileFault::Text(fault)),
    }
}

/// Returns the run of the whole lines of these bytes, and how many bytes those have.
fn salvage_of(alloc: Global, bytes: &[u8]) -> Result<(Run<u64>, u64), FileFault>
//~     ensures held { IfOk result (λ p. salvage_of numbers bytes.now ≡ Ok p) }
//~     ensures refused { IfErr result (λ why. IsNoText (salvage_of numbers) bytes.now why) }
{
    match crate::source::rw_text::salvage(alloc, bytes) {
        Ok(salvaged) => Ok(salvaged),
        Err(TextFault::NoMemory) => Err(FileFault::Stream(StreamFault::NoMemory)),
        Err(fault) => Err(FileFault::Text(fault)),
    }
}

/// Reads a file as a script.
pub fn read_script<F: Read>(alloc: Global, file: &mut F) -> Result<Script, FileFault>
//~     ensures script { IfOk result (λ script. HasScript (F.remaining file.old) (F.remaining file.new) script) }
//~     ensures refused { IfErr result (λ why. HasNoScript (F.remaining file.old) (F.remaining file.new) why) }
{
    match read_whole(alloc, file) {
        Ok(bytes) => script_of(alloc, &bytes),
        Err(fault) => Err(FileFault::Stream(fault)),
    }
}

/// Returns the run whose journal text a file is.
pub fn read_run<F: Read>(alloc: Global, file: &mut F) -> Result<Run<u64>, FileFault>
//~     ensures run { IfOk result (λ run. HasText (reading_of numbers) (F.remaining file.old) (F.remaining file.new) run) }
//~     ensures refused { IfErr result (λ why. HasNoText (reading_of numbers) (F.remaining file.old) (F.remaining file.new) why) }
{
    match read_whole(alloc, file) {
        Ok(bytes) => run_of(alloc, &bytes),
        Err(fault) => Err(FileFault::Stream(fault)),
    }
}

/// Returns the run of the whole lines of a file, a journal text that may have been cut off, and how many bytes those have.
pub fn read_salvage<F: Read>(alloc: Global, file: &mut F) -> Result<(Run<u64>, u64), FileFault>
//~     ensures held { IfOk result (λ p. HasText (salvage_of numbers) (F.remaining file.old) (F.remaining file.new) p) }
//~     ensures refused { IfErr result (λ why. HasNoText (salvage_of numbers) (F.remaining file.old) (F.remaining file.new) why) }
{
    match read_whole(alloc, file) {
        Ok(bytes) => salvage_of(alloc, &bytes),
        Err(fault) => Err(FileFault::Stream(fault)),
    }
}
