//! The console: commands from a reader, and what they write.
// From crates/rw_console/src/console.rt, with its contracts as comments. //+
use crate::shim::Vec; //+

//~ ghost use Rattle.std.specs.Prelude.{◌≡◌, IfOk, IfErr, OnOk};
//~ ghost use Rattle.std.specs.Io.KnownBytes.{Appends};
//~ ghost use Rattle.rw_console.specs.Commands.{command_in, is_quit};
//~ ghost use Rattle.rw_console.specs.Report.{commands_report, output_of, place_of};
//~ ghost use Rattle.rw_lines.specs.Writing.{StopsWriting};
//~ ghost use Rattle.rw_console.specs.Streams.{Always, Answers, Stops};

use crate::source::rw_console::command::{Command, command_of};
use crate::source::rw_console::walk::Walk;
use crate::source::rw_lines::{Next, StreamFault, flush, next_line, put_out};
use crate::shim::alloc::Global;
use crate::shim::io::{Read, Write};

/// Writes the entry that leads to a place. On an error, a prefix of its line was written.
fn write_step<W: Write>(
    walk: &Walk,
    place: u64,
    writer: &mut W,
    out: &mut Vec<u8>,
) -> Result<(), StreamFault>
//~     ensures ok { OnOk result (Appends (W.contents writer.old) (W.contents writer.new) (output_of walk.now.run place Command.Step)) }
//~     ensures err { IfErr result (StopsWriting (W.contents writer.old) (W.contents writer.new) (output_of walk.now.run place Command.Step)) }
{
    out.clear();
    walk.push_step(place, out)?;
    put_out(writer, out)
}

/// Writes the run's entries, one by one. On an error, a prefix of them was written.
fn write_entries<W: Write>(
    walk: &Walk,
    writer: &mut W,
    out: &mut Vec<u8>,
) -> Result<(), StreamFault>
//~     ensures ok { OnOk result (Appends (W.contents writer.old) (W.contents writer.new) (output_of walk.now.run walk.now.place Command.List)) }
//~     ensures err { IfErr result (StopsWriting (W.contents writer.old) (W.contents writer.new) (output_of walk.now.run walk.now.place Command.List)) }
{
    'each_entry: for i in 0..walk.len() {
        write_step(walk, i + 1, writer, out)?;
    }
    Ok(())
}

/// Runs a command, and writes its output. On an error, a prefix of the output was written.
fn write_answer<W: Write>(
    walk: &mut Walk,
    command: Command,
    writer: &mut W,
    out: &mut Vec<u8>,
) -> Result<(), StreamFault>
//~     ensures ok { OnOk result (Appends (W.contents writer.old) (W.contents writer.new) (output_of walk.old.run walk.old.place command)) }
//~     ensures err { IfErr result (StopsWriting (W.contents writer.old) (W.contents writer.new) (output_of walk.old.run walk.old.place command)) }
//~     ensures place { OnOk result (walk.new.place ≡ place_of walk.old.run walk.old.place command) }
//~     ensures run { walk.new.run ≡ walk.old.run }
{
    if matches!(command, Command::List) {
        return write_entries(walk, writer, out);
    }
    out.clear();
    walk.answer(command, out)?;
    put_out(writer, out)
}

/// Runs the command of a line, and returns whether it was `quit`. On an error, a prefix of its output was written.
fn answer_line<W: Write>(
    walk: &mut Walk,
    writer: &mut W,
    line: &[u8],
    out: &mut Vec<u8>,
) -> Result<bool, StreamFault>
//~     ensures quit { IfOk result (λ q. q ≡ is_quit (command_in line.now)) }
//~     ensures ok { OnOk result (Appends (W.contents writer.old) (W.contents writer.new) (output_of walk.old.run walk.old.place (command_in line.now))) }
//~     ensures place { OnOk result (walk.new.place ≡ place_of walk.old.run walk.old.place (command_in line.now)) }
//~     ensures run { walk.new.run ≡ walk.old.run }
//~     ensures err { IfErr result (StopsWriting (W.contents writer.old) (W.contents writer.new) (output_of walk.old.run walk.old.place (command_in line.now))) }
{
    let command = command_of(line);
    write_answer(walk, command, writer, out)?;
    flush(writer)?;
    Ok(matches!(command, Command::Quit))
}

/// Runs the commands of the reader's lines, up to its end or to a `quit`.
///
/// `allowed` is how many more bytes may be read, and counts down.
pub fn commands<R: Read, W: Write>(
    alloc: Global,
    walk: &mut Walk,
    reader: &mut R,
    writer: &mut W,
    allowed: &mut u64,
) -> Result<(), StreamFault>
//~     ensures ok { OnOk result (Answers (R.remaining reader.old) (R.remaining reader.new) (W.contents writer.old) (W.contents writer.new)
//~         (commands_report walk.old.run walk.old.place) allowed.old) }
//~     ensures err { IfErr result (Stops (R.remaining reader.old) (R.remaining reader.new) (W.contents writer.old) (W.contents writer.new)
//~         (commands_report walk.old.run walk.old.place) Always allowed.old) }
//~     ensures run { walk.new.run ≡ walk.old.run }
{
    let mut line = Vec::new(alloc);
    let mut out = Vec::new(alloc);
    'each_line: loop {
        match next_line(reader, allowed, &mut line)? {
            Next::End => return Ok(()),
            Next::Last => {
                answer_line(walk, writer, &line, &mut out)?;
                return Ok(());
            }
            Next::Line => {
                if answer_line(walk, writer, &line, &mut out)? {
                    return Ok(());
                }
            }
        }
    }
}
