//! A session: a script, and then commands that walk over its run.
// From crates/rw_console/src/sessions.rt, with its contracts as comments. //+

//~ ghost use Rattle.std.specs.Prelude.{◌≡◌, IfOk, IfErr, OnOk};
//~ ghost use Rattle.std.specs.Io.KnownBytes.{Appends};
//~ ghost use Rattle.rw_navigator.specs.Places.{last_place};
//~ ghost use Rattle.rw_script.specs.Running.{run_of};
//~ ghost use Rattle.rw_console.specs.ScriptReading.{HasMark};
//~ ghost use Rattle.rw_console.specs.SessionReport.{fault_line, outcome, outcome_at, recording_of, report, waiting_line};
//~ ghost use Rattle.rw_lines.specs.Writing.{StopsWriting};
//~ ghost use Rattle.rw_console.specs.Streams.{Answers, Stops};

use crate::source::rw_console::console::commands;
use crate::source::rw_console::reading::{SessionScript, read_script};
use crate::source::rw_console::session_lines::{fault_line, waiting_line};
use crate::source::rw_console::walk::Walk;
use crate::source::rw_lines::{StreamFault, put_whole};
use crate::source::rw_navigator::Debugger;
use crate::source::rw_script::{Played, Script, ScriptFault, play};
use crate::shim::alloc::Global;
use crate::shim::io::{Read, Write};

/// How a session ended.
#[derive(Clone, Copy, Debug, PartialEq, Eq)]
pub enum Outcome {
    /// Each command was run.
    Done,
    /// The script has a fault, and no command was read.
    Refused(ScriptFault),
    /// Each command was run, over the calls before the line of this number, which would wait.
    Waited(u64),
}

/// The greatest number of bytes that a session reads.
pub const MOST_BYTES: u64 = 268_435_456;

/// Writes a script's fault. On an error, a prefix of it was written.
fn refuse<W: Write>(alloc: Global, writer: &mut W, fault: ScriptFault) -> Result<(), StreamFault>
//~     ensures ok { OnOk result (Appends (W.contents writer.old) (W.contents writer.new) (fault_line fault)) }
//~     ensures err { IfErr result (StopsWriting (W.contents writer.old) (W.contents writer.new) (fault_line fault)) }
{
    let line = fault_line(alloc, fault)?;
    put_whole(writer, line.as_bytes())
}

/// Writes which line would wait, if there is one. On an error, a prefix of that was written.
fn say_waiting<W: Write>(
    alloc: Global,
    writer: &mut W,
    waits: Option<u64>,
) -> Result<(), StreamFault>
//~     ensures ok { OnOk result (Appends (W.contents writer.old) (W.contents writer.new) (waiting_line waits)) }
//~     ensures err { IfErr result (StopsWriting (W.contents writer.old) (W.contents writer.new) (waiting_line waits)) }
{
    let Some(number) = waits else {
        return Ok(());
    };
    let line = waiting_line(alloc, number)?;
    put_whole(writer, line.as_bytes())
}

/// Runs a script, and writes which line would wait, if there is one. Returns a walk at the last place of the script's run, and
/// that line's number. On an error, a prefix of the text was written.
fn begin<W: Write>(
    alloc: Global,
    script: Script,
    writer: &mut W,
) -> Result<(Walk, Option<u64>), StreamFault>
//~     ensures run { IfOk result (λ p. p.0.run ≡ recording_of script) }
//~     ensures place { IfOk result (λ p. p.0.place ≡ last_place p.0.run) }
//~     ensures waits { IfOk result (λ p. p.1 ≡ (run_of script).waits) }
//~     ensures ok { OnOk result (Appends (W.contents writer.old) (W.contents writer.new) (waiting_line (run_of script).waits)) }
//~     ensures err { IfErr result (StopsWriting (W.contents writer.old) (W.contents writer.new) (waiting_line (run_of script).waits)) }
{
    let played = play(alloc, &script);
    drop(script);
    let Played { specs, book, waits } = played?;
    let walk = Walk::at_end(alloc, Debugger::of_book(specs, book));
    match say_waiting(alloc, writer, waits) {
        Ok(()) => Ok((walk, waits)),
        Err(fault) => {
            drop(walk);
            Err(fault)
        }
    }
}

/// Returns how the session of a script ends, given the line that would wait.
fn outcome_at(waits: Option<u64>) -> Outcome
//~     ensures { result ≡ outcome_at waits }
{
    match waits {
        None => Outcome::Done,
        Some(line) => Outcome::Waited(line),
    }
}

/// Reads a script and runs it, then reads commands and writes their output. It ends at a `quit` or at the reader's end. No byte
/// after a `quit`, or after a line of the script with a fault, is read, and of one that is too long no more than shows that.
pub fn session<R: Read, W: Write>(
    alloc: Global,
    reader: &mut R,
    writer: &mut W,
) -> Result<Outcome, StreamFault>
//~     ensures ok { IfOk result (λ o. (done : Answers (R.remaining reader.old) (R.remaining reader.new)
//~         (W.contents writer.old) (W.contents writer.new) report MOST_BYTES)
//~         × (outcome done.bytes ≡ o)) }
//~     ensures err { IfErr result (Stops (R.remaining reader.old) (R.remaining reader.new) (W.contents writer.old) (W.contents writer.new)
//~         report HasMark MOST_BYTES) }
{
    let mut allowed = MOST_BYTES;
    match read_script(alloc, reader, &mut allowed)? {
        SessionScript::Refused(fault) => {
            refuse(alloc, writer, fault)?;
            Ok(Outcome::Refused(fault))
        }
        SessionScript::Ended(script) => {
            let (walk, waits) = begin(alloc, script, writer)?;
            drop(walk);
            Ok(outcome_at(waits))
        }
        SessionScript::Script(script) => {
            let (mut walk, waits) = begin(alloc, script, writer)?;
            let answered = commands(alloc, &mut walk, reader, writer, &mut allowed);
            drop(walk);
            answered?;
            Ok(outcome_at(waits))
        }
    }
}
