//! Sessions over a script, and commands over a run.

use crate::met::{append, refused, say};
use crate::texts::{JOURNAL, read_text};
use proved::Global;
use proved::rw_console::{Outcome, debug, session};
use proved::rw_journal::Run;
use proved::rw_lines::StreamFault;
use std::str::from_utf8;
use support::devices::{FailingReader, FailingWriter};

/// A script whose last call would wait, and commands.
static SESSION: &[u8] = b"broadcast 2
watch 5
actors 2
0 0 downgrade 0 as weak
0 0 send 0 1
0 1 modify 0 6 yes
1 0 try-recv 1
1 0 recv 1
---
list
state
state json
back
step
rforward reply value
rback actor 0
goto 9
rback closed 0
quit
";

/// A script that is refused.
static REFUSED: &[u8] = b"broadcast 2
0 0 send 0 1
0 0 shout 0
";

/// Commands over a run. Without memory for the index of a search, the results are the same.
static COMMANDS: &[u8] = b"list
state
state json
start
rforward reply value
rforward reply value
rback actor 0
end
rback lagging 0 1
rback channel 0
step
lost
";

/// How many bytes are read at a call at most, and how many are written.
const PIECE: usize = 4096;

/// Whether memory was refused: to the session, or to the list that keeps what it writes.
fn is_refused(fault: StreamFault) -> bool {
    matches!(fault, StreamFault::NoMemory | StreamFault::Write)
}

/// What a session writes, and how it ends.
fn session_once(input: &[u8]) -> (FailingWriter, Result<Outcome, StreamFault>) {
    let mut reader = FailingReader::new(input, PIECE, None);
    let mut writer = FailingWriter::new(PIECE, None);
    let ended = session(Global, &mut reader, &mut writer);
    (writer, ended)
}

/// The same, with retries. What was written before a refusal is a prefix of what is written the next time.
fn ask_session(input: &[u8]) -> (FailingWriter, Result<Outcome, StreamFault>) {
    let (front, ended) = session_once(input);
    let Err(fault) = ended else {
        return (front, ended);
    };
    let (writer, ended) = session_once(input);
    refused(is_refused(fault) && writer.written().starts_with(front.written()));
    drop(front);
    (writer, ended)
}

/// What the commands write over a run.
fn debug_once(run: &Run<u64>, input: &[u8]) -> (FailingWriter, Result<(), StreamFault>) {
    let mut reader = FailingReader::new(input, PIECE, None);
    let mut writer = FailingWriter::new(PIECE, None);
    let ended = debug(Global, run, &mut reader, &mut writer);
    (writer, ended)
}

/// The same, with retries. The run is unchanged.
fn ask_debug(run: &Run<u64>, input: &[u8]) -> (FailingWriter, Result<(), StreamFault>) {
    let length = run.len();
    let (front, ended) = debug_once(run, input);
    let Err(fault) = ended else {
        return (front, ended);
    };
    let (writer, ended) = debug_once(run, input);
    let same = run.len() == length && writer.written().starts_with(front.written());
    refused(is_refused(fault) && same);
    drop(front);
    (writer, ended)
}

/// Says what was written.
fn print_written(writer: &FailingWriter) {
    match from_utf8(writer.written()) {
        Ok(text) => append(format_args!("{text}")),
        Err(_) => say!("  what was written isn't text"),
    }
}

/// Plays a session, and says how it ended and what it wrote.
fn play_session(input: &[u8]) {
    let (writer, ended) = ask_session(input);
    say!("a session: {ended:?}");
    print_written(&writer);
}

/// Plays commands over the run of a journal text.
fn play_debug() {
    say!("commands over a run");
    let Ok(run) = read_text(JOURNAL) else {
        return say!("  no run");
    };
    let (writer, ended) = ask_debug(&run, COMMANDS);
    say!("  {ended:?}");
    print_written(&writer);
}

/// Plays all of these.
pub fn play() {
    play_session(SESSION);
    play_session(REFUSED);
    play_debug()
}
