//! The program `ttd`, except its `main`: sessions with the time-travel debugger of channels.
//!
//! `ttd session` runs a session on standard input and output. `ttd record FILE` writes the journal of a script, and with
//! `--threads` that of a script that a thread for each actor plays. `ttd check FILE` checks a journal, `ttd debug FILE` runs
//! commands over one, and `ttd salvage FILE` recovers what is left of one that was cut off.
//! The main contracts are those of `session_on` and of the four functions over files. What they write, their line on standard
//! error and the exit status are determined by the bytes that they read; with threads, by some run of the script. For a session
//! `rw_console`'s `specs/SessionReport.antt` defines them, and for a file `specs/Endings.antt` and `specs/Threads.antt`. Where a
//! fault of a stream, of memory or of threads stops them, they have written a prefix of that, and line and status report the fault.
//! Start reading at `program.rt`, and continue with `files.rt`.
//! What stands on it: `rw_ttd`, `test_words`.
//~ #![tactic(auto)]
// From crates/rw_program/src/lib.rt, with its contracts as comments. //+

mod clap_command;
mod endings;
mod files;
mod flags;
mod inputs;
mod program;
mod reading;
mod statuses;
mod threads;
mod words;

pub use clap_command::command_line;
pub use endings::Ended;
pub use files::{check_file, debug_file, over_file, record_file, salvage_file};
pub use inputs::read_whole;
pub use program::{over_opened, perform, run, session_on, threads_over_opened};
pub use statuses::{error_line, status};
pub use words::{Asked, Command, RefusedWords, Verb, read_words, refuse_words};
