//! Runs over a script in a file that a thread for each actor plays.
// From crates/rw_program/src/threads.rt, with its contracts as comments. //+

//~ ghost use Rattle.rw_program.specs.Lines.{line_of};
//~ ghost use Rattle.rw_program.specs.Threads.{RecordsBy, RecordsThreads};

use crate::source::rw_program::endings::Ended;
use crate::source::rw_program::files::{end_of_refused, record, write_journal};
use crate::source::rw_program::reading::read_script;
use crate::source::rw_console::Outcome;
use crate::source::rw_script::run_threads;
use crate::shim::alloc::Global;
use crate::shim::io::{Read, Write};
use crate::shim::sync::Wait;
use crate::shim::thread::Threads;

/// Plays the script in a file with a thread for each actor, and writes the journal text of its run.
pub(crate) fn record_threads<F: Read, W: Write, R: Threads + Wait + Sync>(
    rt: &R,
    alloc: Global,
    file: &mut F,
    out: &mut W,
) -> Ended
//~     ensures { RecordsThreads (F.remaining file.old) (F.remaining file.new) (W.contents out.old) (W.contents out.new) (line_of result) result.status }
{
    let script = match read_script(alloc, file) {
        Ok(script) => script,
        Err(why) => return end_of_refused(alloc, out, why),
    };
    let played = run_threads(rt, alloc, &script, &());
    drop(script);
    let run = match played {
        Ok(run) => run,
        Err(fault) => return Ended::of_threads(fault),
    };
    let written = write_journal(&run, out);
    drop(run);
    match written {
        Ok(()) => Ended::of(Ok(Outcome::Done)),
        Err(fault) => Ended::of(Err(fault)),
    }
}

/// Runs the script in a file, with threads or without them.
pub(crate) fn record_by<F: Read, W: Write, R: Threads + Wait + Sync>(
    rt: &R,
    alloc: Global,
    file: &mut F,
    threads: bool,
    out: &mut W,
) -> Ended
//~     ensures { RecordsBy threads (F.remaining file.old) (F.remaining file.new) (W.contents out.old) (W.contents out.new) (line_of result) result.status }
{
    if threads {
        record_threads(rt, alloc, file, out)
    } else {
        record(alloc, file, out)
    }
}
