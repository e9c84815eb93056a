//! Commands over a run that exists already.
// From crates/rw_console/src/debugging.rt, with its contracts as comments. //+

//~ ghost use Rattle.std.specs.Prelude.{◌≡◌, IfErr, OnOk};
//~ ghost use Rattle.rw_navigator.specs.Places.{last_place};
//~ ghost use Rattle.rw_console.specs.Report.{commands_report};
//~ ghost use Rattle.rw_console.specs.Streams.{Always, Answers, Stops};

use crate::source::rw_console::console::commands;
use crate::source::rw_console::sessions::MOST_BYTES;
use crate::source::rw_console::walk::Walk;
use crate::source::rw_journal::Run;
use crate::source::rw_lines::StreamFault;
use crate::source::rw_navigator::Move;
use crate::shim::alloc::Global;
use crate::shim::io::{Read, Write};

/// Reads commands and writes their output, starting at the last place of a run. It ends at a `quit` or at the reader's end. No
/// byte after a `quit` is read.
pub fn debug<R: Read, W: Write>(
    alloc: Global,
    run: &Run<u64>,
    reader: &mut R,
    writer: &mut W,
) -> Result<(), StreamFault>
//~     ensures ok { OnOk result (Answers (R.remaining reader.old) (R.remaining reader.new) (W.contents writer.old) (W.contents writer.new)
//~         (commands_report run.now (last_place run.now)) MOST_BYTES) }
//~     ensures err { IfErr result (Stops (R.remaining reader.old) (R.remaining reader.new) (W.contents writer.old) (W.contents writer.new)
//~         (commands_report run.now (last_place run.now)) Always MOST_BYTES) }
{
    let mut walk = Walk::open(alloc, run)?;
    let answered = debug_again(alloc, &mut walk, reader, writer);
    drop(walk);
    answered
}

/// Does what `debug` does, over the run of a walk that stays open. Where the walk is doesn't matter.
pub fn debug_again<R: Read, W: Write>(
    alloc: Global,
    walk: &mut Walk,
    reader: &mut R,
    writer: &mut W,
) -> Result<(), StreamFault>
//~     ensures ok { OnOk result (Answers (R.remaining reader.old) (R.remaining reader.new) (W.contents writer.old) (W.contents writer.new)
//~         (commands_report walk.old.run (last_place walk.old.run)) MOST_BYTES) }
//~     ensures err { IfErr result (Stops (R.remaining reader.old) (R.remaining reader.new) (W.contents writer.old) (W.contents writer.new)
//~         (commands_report walk.old.run (last_place walk.old.run)) Always MOST_BYTES) }
//~     ensures run { walk.new.run ≡ walk.old.run }
{
    let mut allowed = MOST_BYTES;
    let _ = walk.step(Move::End);
    commands(alloc, walk, reader, writer, &mut allowed)
}
