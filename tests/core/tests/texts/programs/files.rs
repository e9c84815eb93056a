//! Scripts and journal texts in files, each kind of work once, and streams that fail.

use super::endings::{Ending, ends_as};
use proved::Global;
use proved::RT;
use proved::rw_program::check_file;
use proved::rw_program::debug_file;
use proved::rw_program::record_file;
use proved::rw_program::salvage_file;
use support::devices::{FailingReader, FailingWriter, at_each_call};

pub const SCRIPT: &[u8] = b"broadcast 4\n0 0 send 0 7\n0 0 try-recv 1\n0 0 drop 0\n";

/// The journal of the script's run, as it is written.
pub const JOURNAL: &[u8] =
    b"ttd-journal 2\nbroadcast 4\nsteps\n1 0 0 send 0 7 = sent 1\n2 0 0 try-recv 1 = value 7\n3 0 0 drop 0 = dropped\nend\n";

/// How a salvage of two whole entry lines and a part of a third ends.
static SALVAGED: Ending = (
    0,
    b"ttd-journal 2\nbroadcast 4\nsteps\n1 0 0 send 0 7 = sent 1\n2 0 0 try-recv 1 = value 7\nend\n",
    b"kept 83 bytes\n",
);

#[test]
fn salvages_journals() {
    let mut file = FailingReader::new(&JOURNAL[..90], 7, None);
    let mut out = FailingWriter::new(64, None);
    let mut err = FailingWriter::new(64, None);
    let status = salvage_file(Global, &mut file, &mut out, &mut err);
    ends_as("salvage", status, &out, &err, &SALVAGED);
}

static DEBUGGED: Ending = (
    0,
    b"place 3 of 3\nchannel 0 broadcast capacity 4 sent 1 queued 0 made 2 closed\nwindow 7\nsenders\nreceiver 1 position 1 unread 0 lag 0\nplace 2 of 3\n#2 2 0 0 try-recv 1 = value 7\n",
    b"",
);

#[test]
fn debugs_journals() {
    let mut file = FailingReader::new(JOURNAL, 64, None);
    let mut input = FailingReader::new(b"state\nback\nstep\n", 64, None);
    let mut out = FailingWriter::new(4096, None);
    let mut err = FailingWriter::new(64, None);
    let status = debug_file(Global, &mut file, &mut input, &mut out, &mut err);
    ends_as("debug", status, &out, &err, &DEBUGGED);
}

/// Whether a run over streams that fail after this many calls is complete. If not, it asserts that no earlier run was, that a
/// prefix of the output was written, and that the fault is reported: a read fault up to call `reads`, and a write fault after
/// that.
fn is_whole(
    (calls, reads, done): (u64, u64, bool),
    status: u8,
    out: &FailingWriter,
    err: &FailingWriter,
    want: &[u8],
) -> bool {
    let is_whole = status == 0 && out.handed_on() == want;
    let is_front = status == 4 && !done && want.starts_with(out.written());
    let told: &[u8] = match status {
        0 => b"",
        _ if calls <= reads => b"read fault\n",
        _ => b"write fault\n",
    };
    let found = (is_whole || is_front, err.written());
    assert_eq!(found, (true, told), "case {calls}");
    is_whole
}

/// Whether the script is recorded completely. Eight reads return the script, and a ninth its end.
fn is_recorded(calls: u64, done: bool) -> bool {
    let mut file = FailingReader::new(SCRIPT, 7, Some(calls));
    let mut out = FailingWriter::new(3, Some(calls));
    let mut err = FailingWriter::new(64, None);
    let status = record_file(&RT, Global, &mut file, false, &mut out, &mut err);
    is_whole((calls, 8, done), status, &out, &err, JOURNAL)
}

#[test]
fn each_read_and_each_write_fails() {
    at_each_call(100, is_recorded);
}

/// Whether the journal is checked completely. Sixteen reads return the journal, and one more its end.
fn is_checked(calls: u64, done: bool) -> bool {
    let mut file = FailingReader::new(JOURNAL, 7, Some(calls));
    let mut out = FailingWriter::new(3, Some(calls / 9));
    let mut err = FailingWriter::new(64, None);
    let status = check_file(Global, &mut file, &mut out, &mut err);
    is_whole((calls, 16, done), status, &out, &err, b"ok 3\n")
}

#[test]
fn each_read_and_each_write_of_a_check_fails() {
    at_each_call(30, is_checked);
}

/// How many writes succeed, and how many bytes of the line they write. Each writes three bytes at most, so five writes write the
/// line.
static WRITES: [(u64, usize); 6] = [(0, 0), (1, 3), (2, 6), (3, 9), (4, 12), (5, 13)];

/// Asserts that a script that would wait is recorded up to there, and reported to a stream for errors that accepts `length` bytes
/// of the line.
fn is_told(calls: u64, length: usize) {
    let mut file = FailingReader::new(b"broadcast 2\n0 0 recv 1\n", 64, None);
    let mut out = FailingWriter::new(64, None);
    let mut err = FailingWriter::new(3, Some(calls));
    let status = record_file(&RT, Global, &mut file, false, &mut out, &mut err);
    let told = err.written();
    let is_front = b"would wait 2\n".starts_with(told);
    let journal: &[u8] = b"ttd-journal 2\nbroadcast 2\nsteps\nend\n";
    let found = (status, out.handed_on(), told.len(), is_front);
    assert_eq!(found, (3, journal, length, true), "case {calls}");
}

// A failed write on the stream for errors changes neither the status nor what is written.
#[test]
fn each_write_of_a_told_line_fails() {
    for (calls, length) in &WRITES {
        is_told(*calls, *length);
    }
}
