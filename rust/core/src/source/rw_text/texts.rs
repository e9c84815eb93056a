//! Reading a journal text.
// From crates/rw_text/src/texts.rt, with its contracts as comments. //+

//~ ghost use Rattle.std.specs.Prelude.{◌≡◌, IfOk, IsErrOf, Ok};
//~ ghost use Rattle.rw_journal.specs.Run.{IsRun, Run as Seen};
//~ ghost use Rattle.rw_text.specs.Memory.{AsksMemory};
//~ ghost use Rattle.rw_text.specs.Reading.{Finishes, reading_of};
//~ ghost use Rattle.rw_text.specs.Texts.{IsSpelled, IsText, text, text_of};
//~ ghost use Rattle.rw_text.specs.declared.versions.Version.{Version};

use crate::source::rw_text::faults::TextFault;
use crate::source::rw_text::reader::read_whole_lines;
use crate::source::rw_journal::Run;
use crate::source::rw_law::Payload;
use crate::shim::alloc::Global;

/// Returns the run whose text the bytes are, in either version, or their first fault. The text that `write` writes for a run is
/// read as that run.
pub fn read<V: Payload>(alloc: Global, bytes: &[u8]) -> Result<Run<V>, TextFault>
    // What is read is a run, and the bytes are its text in one of the versions.
//~     ensures found { IfOk result (λ run. IsRun run.specs run.entries × IsText V.Payload bytes.now run) }
    // The text of a run is accepted, unless memory runs out. `write` ensures that a run is spelled in version 2.
//~     ensures only { (version : Version) (run : Seen V) → IsRun run.specs run.entries → IsSpelled version V.Payload run →
//~         bytes.now ≡ text_of version V.Payload run → Finishes result (Ok run) }
    // A run that was read, from either version, is read again from the text that is written for it.
//~     ensures migrates { IfOk result (λ run. reading_of V.Payload (text V.Payload run) ≡ Ok run) }
    // Which fault it is.
//~     ensures exact { Finishes result (reading_of V.Payload bytes.now) }
    // An allocation can only fail at a line that allocates, after the lines before it were accepted.
//~     ensures memory { IsErrOf result TextFault.NoMemory → AsksMemory V.Payload bytes.now }
{
    let (reader, _) = read_whole_lines(alloc, bytes)?;
    reader.whole_run()
}
