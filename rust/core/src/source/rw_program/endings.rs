//! How a run ends: a line for standard error, and the exit status.
// From crates/rw_program/src/endings.rt, with its contracts as comments. //+
use crate::shim::String; //+

//~ ghost use Rattle.std.specs.Prelude.{◌≡◌, ◌≤◌, ◌<◌, ℕ, List, [], Err, take, length, string_bytes, OnOk, OnErr, IfOk, IfErr};
//~ ghost use Rattle.std.specs.Io.KnownBytes.{Appends};
//~ ghost use Rattle.rw_program.specs.Files.{TellsLine};
//~ ghost use Rattle.rw_program.specs.Statuses.{Says, Tells, error_line_of, error_line_of_threads, error_line_of_unread, status_of};

use crate::source::rw_program::statuses::{
    NO_RUN, REFUSED_WORDS, error_line, error_line_of_threads, error_line_of_unread, status,
};
use crate::source::rw_console::Outcome;
use crate::source::rw_lines::{ShortWrite, StreamFault, put};
use crate::source::rw_script::RunFault;
use crate::shim::alloc::AllocError;
use crate::shim::io::Write;

/// A line for standard error, which may be empty.
//~ #[derive(Drop)]
enum Line {
    Fixed(&'static str),
    Made(String),
}

impl Line {
//~     ghost use Rattle.rw_program.specs.Lines.{text_of};

    /// Returns its text.
    fn text(&self) -> &str
//~         ensures { result.now ≡ text_of self.now }
    {
        match self {
            Line::Fixed(line) => line,
            Line::Made(line) => line.as_str(),
        }
    }
}

/// How a run ended: the line for standard error, and the exit status.
//~ #[derive(Drop)]
pub struct Ended {
    line: Line,
    status: u8,
//~     ghost known: { status ≤ 5 },
}

impl Ended {
//~     ghost use Rattle.rw_program.specs.Lines.{line_of};

    /// Returns the end of a session or of commands over a run, given their result.
    pub fn of(ended: Result<Outcome, StreamFault>) -> Ended
//~         ensures line { line_of result ≡ error_line_of ended }
//~         ensures status { result.status ≡ status_of ended }
    {
        Ended {
            line: Line::Fixed(error_line(ended)),
            status: status(ended),
        }
    }

    /// Returns the end of a script whose threads returned no run.
    pub fn of_threads(fault: RunFault) -> Ended
//~         ensures line { line_of result ≡ error_line_of_threads fault }
//~         ensures status { result.status ≡ 5 }
    {
        Ended {
            line: Line::Fixed(error_line_of_threads(fault)),
            status: NO_RUN,
        }
    }

    /// Returns the end if a word of the command line isn't UTF-8. Its line has the form of other lines that refuse words.
    pub fn of_unread_words() -> Ended
//~         ensures line { line_of result ≡ error_line_of_unread }
//~         ensures status { result.status ≡ 2 }
    {
        Ended {
            line: Line::Fixed(error_line_of_unread()),
            status: REFUSED_WORDS,
        }
    }

    /// Returns an end with this status and no line.
    pub fn silent(status: u8) -> Ended
//~         requires { status ≤ 5 }
//~         ensures line { line_of result ≡ [] }
//~         ensures status { result.status ≡ status }
    {
        Ended {
            line: Line::Fixed(""),
            status,
        }
    }

    /// Returns an end with this line and status or, where memory ran out before the line was made, the end that reports that.
    pub fn told(line: Result<String, AllocError>, status: u8) -> Ended
//~         requires { status ≤ 5 }
//~         ensures line { IfOk line (λ made. (line_of result ≡ string_bytes made) × (result.status ≡ status)) }
//~         ensures memory { OnErr line (Tells (line_of result) result.status (Err StreamFault.NoMemory)) }
//~         ensures told { (text : List ℕ) → IfOk line (λ made. string_bytes made ≡ text) → TellsLine (line_of result) result.status text status }
    {
        match line {
            Ok(line) => Ended {
                line: Line::Made(line),
                status,
            },
            Err(_) => Ended::of(Err(StreamFault::NoMemory)),
        }
    }

    /// Returns the line, which may be empty.
    pub fn line(&self) -> &str
//~         ensures { result.now ≡ line_of self.now }
    {
        self.line.text()
    }

    /// Returns the exit status.
    pub fn status(&self) -> u8
//~         ensures known { result ≤ 5 }
//~         ensures status { result ≡ self.now.status }
    {
        self.status
    }

    /// Writes the line to `err`. On an error exactly the first bytes of the line were written, as many as the error reports.
    pub fn tell<E: Write>(&self, err: &mut E) -> Result<(), ShortWrite>
//~         ensures ok { OnOk result (Appends (E.contents err.old) (E.contents err.new) (line_of self.now)) }
//~         ensures short { IfErr result (λ e. e.written < length (line_of self.now)) }
//~         ensures err { IfErr result (λ e. Appends (E.contents err.old) (E.contents err.new)
//~             (take e.written (line_of self.now))) }
    {
        put(err, self.line().as_bytes())
    }

    /// Writes the line to `err`, and returns the exit status. A failure of `err` itself doesn't change the status.
    pub fn finish<E: Write>(&self, err: &mut E) -> u8
//~         ensures known { result ≤ 5 }
//~         ensures status { result ≡ self.now.status }
//~         ensures says { Says (E.contents err.old) (E.contents err.new) (line_of self.now) }
    {
        let _ = self.tell(err);
        self.status()
    }
}
