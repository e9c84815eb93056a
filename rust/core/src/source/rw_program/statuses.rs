//! How a session's end is reported: by an exit status, and a line on standard error.
// From crates/rw_program/src/statuses.rt, with its contracts as comments. //+

//~ ghost use Rattle.std.specs.Prelude.{◌≡◌, ◌≤◌};
//~ ghost use Rattle.rw_program.specs.Statuses.{error_line_of, error_line_of_threads, error_line_of_unread, status_of};

use crate::source::rw_console::Outcome;
use crate::source::rw_lines::StreamFault;
use crate::source::rw_script::RunFault;

/// The input was refused.
pub const REFUSED_INPUT: u8 = 1;

/// The command line was refused.
pub const REFUSED_WORDS: u8 = 2;

/// A call of the script would wait.
pub const WOULD_WAIT: u8 = 3;

/// An input couldn't be read or was too long, or the output couldn't be written.
pub const STREAM_FAULT: u8 = 4;

/// Memory ran out, a thread couldn't be started, or the threads strayed.
pub const NO_RUN: u8 = 5;

/// Returns the exit status of a session with this result.
pub fn status(ended: Result<Outcome, StreamFault>) -> u8
//~     ensures status { result ≡ status_of ended }
//~     ensures known { result ≤ 5 }
{
    match ended {
        Ok(Outcome::Done) => 0,
        Ok(Outcome::Refused(_)) => REFUSED_INPUT,
        Ok(Outcome::Waited(_)) => WOULD_WAIT,
        Err(StreamFault::Read | StreamFault::Write | StreamFault::TooMuch) => STREAM_FAULT,
        Err(StreamFault::NoMemory) => NO_RUN,
    }
}

/// Returns the line for standard error. A session that reached its end has none there, whatever its script.
pub fn error_line(ended: Result<Outcome, StreamFault>) -> &'static str
//~     ensures { result.now ≡ error_line_of ended }
{
    match ended {
        Ok(_) => "",
        Err(StreamFault::Read | StreamFault::TooMuch) => "read fault\n",
        Err(StreamFault::Write) => "write fault\n",
        Err(StreamFault::NoMemory) => "no memory\n",
    }
}

/// Returns the line for standard error if the threads of a script return no run.
pub fn error_line_of_threads(fault: RunFault) -> &'static str
//~     ensures { result.now ≡ error_line_of_threads fault }
{
    match fault {
        RunFault::NoMemory => "no memory\n",
        RunFault::NoThread => "no thread\n",
        RunFault::Strayed => "strayed\n",
    }
}

/// Returns the line for standard error if a word of the command line isn't UTF-8.
pub fn error_line_of_unread() -> &'static str
//~     ensures { result.now ≡ error_line_of_unread }
{
    "error: invalid UTF-8 was detected in one or more arguments\n"
}
