//! Runs over a script or a journal text in a file.
// From crates/rw_program/src/files.rt, with its contracts as comments. //+
use crate::shim::{String, format}; //+

//~ ghost use Rattle.std.specs.Prelude.{◌≡◌, ◌≤◌, ◌<◌, ℕ, List, [], length, string_bytes, IfErr, IfOk, OnOk};
//~ ghost use Rattle.std.specs.Io.KnownBytes.{Appends};
//~ ghost use Rattle.rw_lines.specs.Writing.{WritesPrefix};
//~ ghost use Rattle.rw_law.specs.Numbers.{numbers};
//~ ghost use Rattle.rw_text.specs.Texts.{text};
//~ ghost use Rattle.rw_program.specs.Files.{Closes, Refuses, SaysWaiting, TellsWhy};
//~ ghost use Rattle.rw_program.specs.Lines.{line_of};
//~ ghost use Rattle.rw_program.specs.Statuses.{Says};
//~ ghost use Rattle.rw_program.specs.Threads.{RecordsBy};
//~ ghost use Rattle.rw_program.specs.Verbs.{Checks, DoneBy, Records, Salvages, Walks};

use crate::source::rw_program::endings::Ended;
use crate::source::rw_program::reading::{FileFault, read_run, read_salvage, read_script};
use crate::source::rw_program::statuses::{REFUSED_INPUT, WOULD_WAIT};
use crate::source::rw_program::threads::record_by;
use crate::source::rw_program::words::Verb;
use crate::source::rw_console::{Outcome, debug, fault_line, waiting_line};
use crate::source::rw_journal::Run;
use crate::source::rw_lines::{StreamFault, flush, put_whole};
use crate::source::rw_script::run_one;
use crate::shim::alloc::{AllocError, Global};
use crate::shim::io::{Read, Write};
use crate::shim::sync::Wait;
use crate::shim::thread::Threads;

/// Writes a line, and ends with this status, unless the writer fails or memory ran out before the line was made.
fn end_with<W: Write>(out: &mut W, line: Result<String, AllocError>, status: u8) -> Ended
//~     requires { status ≤ 5 }
//~     ensures { (text : List ℕ) → 0 < length text → IfOk line (λ made. string_bytes made ≡ text) → Closes (W.contents out.old) (W.contents out.new)
//~         (line_of result) result.status (record { written = text; told = []; status = status }) }
{
    let Ok(line) = line else {
        return Ended::of(Err(StreamFault::NoMemory));
    };
    match put_whole(out, line.as_bytes()) {
        Ok(()) => Ended::silent(status),
        Err(fault) => Ended::of(Err(fault)),
    }
}

/// Returns the end for a file that is refused. Its line has the reason.
fn tell(alloc: Global, why: FileFault) -> Ended
//~     ensures { TellsWhy (line_of result) result.status why }
{
    match why {
        FileFault::Stream(fault) => Ended::of(Err(fault)),
        FileFault::Script(fault) => Ended::told(fault_line(alloc, fault), REFUSED_INPUT),
        FileFault::Text(fault) => Ended::told(fault.line(alloc), REFUSED_INPUT),
    }
}

/// Returns the end for a file that is refused. A journal text's fault is written to `out`.
pub(crate) fn end_of_refused<W: Write>(alloc: Global, out: &mut W, why: FileFault) -> Ended
//~     ensures { Refuses (W.contents out.old) (W.contents out.new) (line_of result) result.status why }
{
    match why {
        FileFault::Stream(_) | FileFault::Script(_) => tell(alloc, why),
        FileFault::Text(fault) => end_with(out, fault.line(alloc), REFUSED_INPUT),
    }
}

/// Returns the end of a script's run. Its line says which line would wait, if there is one.
fn end_of_waiting(alloc: Global, waits: Option<u64>) -> Ended
//~     ensures { SaysWaiting (line_of result) result.status waits }
{
    match waits {
        None => Ended::of(Ok(Outcome::Done)),
        Some(number) => Ended::told(waiting_line(alloc, number), WOULD_WAIT),
    }
}

/// Writes a run's journal text, and flushes. On an error the writer failed, after a prefix of the text was written.
pub(crate) fn write_journal<W: Write>(run: &Run<u64>, out: &mut W) -> Result<(), StreamFault>
//~     ensures ok { OnOk result (Appends (W.contents out.old) (W.contents out.new) (text numbers run.now)) }
//~     ensures fault { IfErr result (λ fault. fault ≡ StreamFault.Write) }
//~     ensures prefix { IfErr result (λ _. WritesPrefix (W.contents out.old) (W.contents out.new) (text numbers run.now)) }
{
    match crate::source::rw_text::write(run, out) {
        Ok(_) => flush(out),
        Err(_) => Err(StreamFault::Write),
    }
}

/// Runs the script in a file, and writes the journal text of the calls before the first that would wait.
pub(crate) fn record<F: Read, W: Write>(alloc: Global, file: &mut F, out: &mut W) -> Ended
//~     ensures { Records (F.remaining file.old) (F.remaining file.new) (W.contents out.old) (W.contents out.new) (line_of result) result.status }
{
    let script = match read_script(alloc, file) {
        Ok(script) => script,
        Err(why) => return end_of_refused(alloc, out, why),
    };
    let ran = run_one(alloc, &script);
    drop(script);
    let Ok((run, waits)) = ran else {
        return Ended::of(Err(StreamFault::NoMemory));
    };
    let written = write_journal(&run, out);
    drop(run);
    match written {
        Ok(()) => end_of_waiting(alloc, waits),
        Err(fault) => Ended::of(Err(fault)),
    }
}

/// Checks the journal text in a file: writes `ok N`, where N is the number of its entries, or its first fault.
fn check<F: Read, W: Write>(alloc: Global, file: &mut F, out: &mut W) -> Ended
//~     ensures { Checks (F.remaining file.old) (F.remaining file.new) (W.contents out.old) (W.contents out.new) (line_of result) result.status }
{
    let run = match read_run(alloc, file) {
        Ok(run) => run,
        Err(why) => return end_of_refused(alloc, out, why),
    };
    let count = run.len();
    drop(run);
    end_with(out, format!(in alloc; "ok {count}\n"), 0)
}

/// Writes the journal text of the whole lines of a file, which is a journal text that may have been cut off.
fn salvage<F: Read, W: Write>(alloc: Global, file: &mut F, out: &mut W) -> Ended
//~     ensures { Salvages (F.remaining file.old) (F.remaining file.new) (W.contents out.old) (W.contents out.new) (line_of result) result.status }
{
    let (run, count) = match read_salvage(alloc, file) {
        Ok(salvaged) => salvaged,
        Err(why) => return tell(alloc, why),
    };
    let written = write_journal(&run, out);
    drop(run);
    match written {
        Ok(()) => Ended::told(format!(in alloc; "kept {count} bytes\n"), 0),
        Err(fault) => Ended::of(Err(fault)),
    }
}

/// Reads the journal text in a file, then reads commands over its run and writes their output.
fn walk<F: Read, R: Read, W: Write>(
    alloc: Global,
    file: &mut F,
    input: &mut R,
    out: &mut W,
) -> Ended
//~     ensures { Walks (F.remaining file.old) (F.remaining file.new) (R.remaining input.old) (R.remaining input.new)
//~         (W.contents out.old) (W.contents out.new) (line_of result) result.status }
{
    let run = match read_run(alloc, file) {
        Ok(run) => run,
        Err(why) => return end_of_refused(alloc, out, why),
    };
    let answered = debug(alloc, &run, input, out);
    drop(run);
    match answered {
        Ok(()) => Ended::of(Ok(Outcome::Done)),
        Err(fault) => Ended::of(Err(fault)),
    }
}

/// Runs a verb over an open file. Only `debug` reads the input.
pub fn over_file<F: Read, R: Read, W: Write>(
    alloc: Global,
    verb: Verb,
    file: &mut F,
    input: &mut R,
    out: &mut W,
) -> Ended
//~     ensures { DoneBy verb (F.remaining file.old) (F.remaining file.new) (R.remaining input.old) (R.remaining input.new)
//~         (W.contents out.old) (W.contents out.new) (line_of result) result.status }
{
    match verb {
        Verb::Record => record(alloc, file, out),
        Verb::Check => check(alloc, file, out),
        Verb::Debug => walk(alloc, file, input, out),
        Verb::Salvage => salvage(alloc, file, out),
    }
}

/// Runs the script in a file, and writes the journal text of the calls before the first that would wait. Which line would wait,
/// or the script's fault, is written to `err`. With `threads` each actor has a thread, which waits where a call would wait. If
/// the threads return no run, the reason is written to `err`.
pub fn record_file<F: Read, W: Write, E: Write, R: Threads + Wait + Sync>(
    rt: &R,
    alloc: Global,
    file: &mut F,
    threads: bool,
    out: &mut W,
    err: &mut E,
) -> u8
//~     ensures known { result ≤ 5 }
//~     ensures records { (line : List ℕ) × Says (E.contents err.old) (E.contents err.new) line
//~         × RecordsBy threads (F.remaining file.old) (F.remaining file.new) (W.contents out.old) (W.contents out.new) line result }
{
    let ended = record_by(rt, alloc, file, threads, out);
    ended.finish(err)
}

/// Checks the journal text in a file: writes `ok N`, where N is the number of its entries, or its first fault.
pub fn check_file<F: Read, W: Write, E: Write>(
    alloc: Global,
    file: &mut F,
    out: &mut W,
    err: &mut E,
) -> u8
//~     ensures known { result ≤ 5 }
//~     ensures checks { (line : List ℕ) × Says (E.contents err.old) (E.contents err.new) line
//~         × Checks (F.remaining file.old) (F.remaining file.new) (W.contents out.old) (W.contents out.new) line result }
{
    let ended = check(alloc, file, out);
    ended.finish(err)
}

/// Reads the journal text in a file, then reads commands over its run and writes their output.
pub fn debug_file<F: Read, R: Read, W: Write, E: Write>(
    alloc: Global,
    file: &mut F,
    input: &mut R,
    out: &mut W,
    err: &mut E,
) -> u8
//~     ensures known { result ≤ 5 }
//~     ensures debugs { (line : List ℕ) × Says (E.contents err.old) (E.contents err.new) line
//~         × Walks (F.remaining file.old) (F.remaining file.new) (R.remaining input.old) (R.remaining input.new)
//~         (W.contents out.old) (W.contents out.new) line result }
{
    let ended = walk(alloc, file, input, out);
    ended.finish(err)
}

/// Writes the journal text of the whole lines of a file, which is a journal text that may have been cut off. How many bytes
/// those have, or the text's fault, is written to `err`.
pub fn salvage_file<F: Read, W: Write, E: Write>(
    alloc: Global,
    file: &mut F,
    out: &mut W,
    err: &mut E,
) -> u8
//~     ensures known { result ≤ 5 }
//~     ensures salvages { (line : List ℕ) × Says (E.contents err.old) (E.contents err.new) line
//~         × Salvages (F.remaining file.old) (F.remaining file.new) (W.contents out.old) (W.contents out.new) line result }
{
    let ended = salvage(alloc, file, out);
    ended.finish(err)
}
