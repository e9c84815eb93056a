//! The program over its words, files and streams.
// From crates/rw_program/src/program.rt, with its contracts as comments. //+
use crate::shim::{AllocGlobal, Input, Print, String, Vec}; //+

//~ ghost use Rattle.std.specs.Prelude.{◌≡◌, ◌≢◌, ◌≤◌, ◌⊎◌, ℕ, List, Option, IfOk, IfErr};
//~ ghost use Rattle.std.specs.Io.KnownBytes.{Keeps};
//~ ghost use Rattle.std.specs.IoError.{error_kind};
//~ ghost use Rattle.rw_console.specs.ScriptReading.{HasMark};
//~ ghost use Rattle.rw_console.specs.SessionReport.{outcome, report};
//~ ghost use Rattle.rw_program.specs.Files.{TellsOnly};
//~ ghost use Rattle.rw_program.specs.Lines.{line_of};
//~ ghost use Rattle.rw_program.specs.Runs.{Runs};
//~ ghost use Rattle.rw_program.specs.Statuses.{Says, Tells, error_line_of_unread};
//~ ghost use Rattle.rw_program.specs.Threads.{RecordsThreads};
//~ ghost use Rattle.rw_program.specs.Verbs.{DoneBy};
//~ ghost use Rattle.rw_program.specs.CommandLine.{given, wish_of};
//~ ghost use Rattle.rw_program.specs.Words.{EndsAs, EndsFor, IsEnd};

use crate::source::rw_program::endings::Ended;
use crate::source::rw_program::files::over_file;
use crate::source::rw_program::threads::record_threads;
use crate::source::rw_program::words::{Asked, RefusedWords, Verb, read_words, refuse_words};
use crate::source::rw_console::session;
use crate::source::rw_lines::StreamFault;
use crate::shim::alloc::Global;
use crate::shim::fs;
use crate::shim::io::{self, BufReader, BufWriter, ErrorKind, Read, Write};
use crate::shim::rt::{Env, Files};
use crate::shim::sync::Wait;
use crate::shim::thread::Threads;

/// How many bytes of output are buffered.
const OUTPUT_BUFFER: usize = 65_536;

/// Runs a session on these streams, reports its end on `err`, and returns the exit status.
pub fn session_on<R: Read, W: Write, E: Write>(
    alloc: Global,
    input: &mut R,
    out: &mut W,
    err: &mut E,
) -> u8
//~     ensures known { result ≤ 5 }
//~     ensures runs { (line : List ℕ) × Says (E.contents err.old) (E.contents err.new) line
//~         × Runs report outcome HasMark (R.remaining input.old) (R.remaining input.new) (W.contents out.old) (W.contents out.new) line result }
{
    let ended = Ended::of(session(alloc, input, out));
    ended.finish(err)
}

/// Runs a verb over a file. A file that couldn't be opened is a failed read.
pub fn over_opened<F: Read /*~+ Drop~*/, R: Read, W: Write>(
    alloc: Global,
    verb: Verb,
    file: io::Result<F>,
    input: &mut R,
    out: &mut W,
) -> Ended
//~     ensures unopened { IfErr file (λ _. Keeps (R.remaining input.old) (R.remaining input.new)
//~         × TellsOnly (W.contents out.old) (W.contents out.new) (line_of result) result.status StreamFault.Read) }
//~     ensures done { IfOk file (λ f. (rest : Option (List ℕ))
//~         × DoneBy verb (F.remaining f) rest (R.remaining input.old) (R.remaining input.new)
//~         (W.contents out.old) (W.contents out.new) (line_of result) result.status) }
{
    match file {
        Ok(mut file) => over_file(alloc, verb, &mut file, input, out),
        Err(_) => Ended::of(Err(StreamFault::Read)),
    }
}

/// Plays the script in a file with a thread for each actor. A file that couldn't be opened is a failed read.
pub fn threads_over_opened<F: Read /*~+ Drop~*/, W: Write, R: Threads + Wait + Sync>(
    rt: &R,
    alloc: Global,
    file: io::Result<F>,
    out: &mut W,
) -> Ended
//~     ensures unopened { IfErr file (λ _. TellsOnly (W.contents out.old) (W.contents out.new) (line_of result) result.status StreamFault.Read) }
//~     ensures played { IfOk file (λ f. (rest : Option (List ℕ))
//~         × RecordsThreads (F.remaining f) rest (W.contents out.old) (W.contents out.new) (line_of result) result.status) }
{
    match file {
        Ok(mut file) => record_threads(rt, alloc, &mut file, out),
        Err(_) => Ended::of(Err(StreamFault::Read)),
    }
}

/// Opens the file of a verb. If the verb reads standard input and that is closed, no file is opened: the system would open it as
/// standard input, and its bytes would be read as commands.
fn open_for<R: Files + Input>(rt: &R, verb: Verb, path: &str) -> io::Result<R::File> {
    if verb == Verb::Debug {
        // A read of no bytes waits for nothing. It fails if the stream is closed.
        rt.reader().read(&mut [])?;
    }
    fs::open(rt, path)
}

/// Runs the command of the command line.
fn answer<R: Files + Input + Print + AllocGlobal + Threads + Wait + Sync>(
    rt: &R,
    asked: Asked<'_>,
) -> Ended
//~     ensures { EndsAs (wish_of asked.entry) (line_of result) result.status }
{
    let alloc = rt.alloc();
    // A session flushes once per command, and a long list is written in large pieces.
    let Ok(mut out) = BufWriter::with_capacity(alloc, OUTPUT_BUFFER, io::writer(rt)) else {
        return Ended::of(Err(StreamFault::NoMemory));
    };
    let Ok(mut input) = BufReader::new(alloc, rt.reader()) else {
        return Ended::of(Err(StreamFault::NoMemory));
    };
    match asked {
        Asked::Session => Ended::of(session(alloc, &mut input, &mut out)),
        Asked::Over(verb, path) => {
            let file = open_for(rt, verb, path);
            over_opened(alloc, verb, file, &mut input, &mut out)
        }
        Asked::Threads(path) => threads_over_opened(rt, alloc, fs::open(rt, path), &mut out),
    }
}

/// Returns the end if the words can't be read: one isn't UTF-8, which its line says, or memory ran out.
fn unread_words(error: &io::Error) -> Ended
//~     ensures memory { error_kind error.now ≡ ErrorKind.OutOfMemory → Tells (line_of result) result.status (Err StreamFault.NoMemory) }
//~     ensures words { error_kind error.now ≢ ErrorKind.OutOfMemory → (line_of result ≡ error_line_of_unread) × (result.status ≡ 2) }
{
    match error.kind() {
        ErrorKind::OutOfMemory => Ended::of(Err(StreamFault::NoMemory)),
        _ => Ended::of_unread_words(),
    }
}

/// Returns the words of the command line.
fn words_of<R: Env + AllocGlobal>(rt: &R) -> Result<Vec<String>, Ended>
//~     ensures { IfErr result (λ ended. ((line_of ended ≡ error_line_of_unread) × (ended.status ≡ 2))
//~         ⊎ Tells (line_of ended) ended.status (Err StreamFault.NoMemory)) }
{
    match crate::shim::env::args(rt) {
        Ok(args) => args
            .collect(rt.alloc())
            .map_err(|_| Ended::of(Err(StreamFault::NoMemory))),
        Err(error) => Err(unread_words(&error)),
    }
}

/// Runs the command that these words ask for, or refuses them. The first is the program's name.
pub fn perform<R: Files + Input + Print + AllocGlobal + Threads + Wait + Sync>(
    rt: &R,
    words: &[String],
) -> Ended
//~     ensures { EndsFor (given words.now) (line_of result) result.status }
{
    match read_words(words) {
        Ok(asked) => answer(rt, asked),
        Err(RefusedWords) => refuse_words(rt.alloc(), words),
    }
}

/// Runs the program on the real words, files and streams, and returns its exit status.
pub fn run<R: Env + Files + Input + Print + AllocGlobal + Threads + Wait + Sync, E: Write>(
    rt: &R,
    err: &mut E,
) -> u8
//~     ensures known { result ≤ 5 }
//~     ensures ends { (line : List ℕ) × Says (E.contents err.old) (E.contents err.new) line × IsEnd line result }
{
    match words_of(rt) {
        Ok(words) => perform(rt, words.as_slice()).finish(err),
        Err(ended) => ended.finish(err),
    }
}
