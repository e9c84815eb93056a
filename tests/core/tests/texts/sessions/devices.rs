//! Readers and writers that fail at one call.

use proved::Global;
use proved::rw_console::{Outcome, session};
use proved::rw_lines::StreamFault;
use support::devices::{FailingReader, FailingWriter, at_each_call};

const INPUT: &[u8] =
    b"broadcast 2\n0 0 send 0 1\n0 0 try-recv 1\n0 0 recv 1\n---\nlist\nstate\nstate json\nback\nstep\nrforward reply value\nrback closed 0\nlost\nquit\n";

const REPORT: &[u8] =
    b"would wait 4\n#1 1 0 0 send 0 1 = sent 1\n#2 2 0 0 try-recv 1 = value 1\nplace 2 of 2\nchannel 0 broadcast capacity 2 sent 1 queued 0 made 2 open\nwindow 1\nsenders 0\nreceiver 1 position 1 unread 0 lag 0\n{\"channels\":[{\"capacity\":2,\"closed\":false,\"kind\":\"broadcast\",\"made\":2,\"queued\":0,\"receivers\":[{\"handle\":1,\"lag\":0,\"position\":1,\"unread\":0}],\"senders\":[0],\"sent\":1,\"window\":[1]}],\"len\":2,\"place\":2}\nplace 1 of 2\n#1 1 0 0 send 0 1 = sent 1\nhit 2 of 2\nno hit, place 2 of 2\nbad command\n";

/// Whether a session over devices that fail after this many calls is complete. If not, it asserts that it ends with this fault,
/// that no earlier one was complete, and that a prefix of the report was written.
fn is_whole(
    calls: u64,
    done: bool,
    (ended, fault): (Result<Outcome, StreamFault>, StreamFault),
    writer: &FailingWriter,
) -> bool {
    // Flushed once for the line that would wait, and once for each command.
    let is_flushed = writer.handed_on() == REPORT && writer.flushes() == 10;
    let is_whole = ended == Ok(Outcome::Waited(4)) && is_flushed;
    let is_front = !done && REPORT.starts_with(writer.written());
    let has_failed = ended == Err(fault) && is_front;
    assert!(is_whole || has_failed, "{calls}");
    is_whole
}

/// Whether a session is complete whose reader fails after this many calls.
fn is_read(calls: u64, done: bool) -> bool {
    let mut reader = FailingReader::new(INPUT, 1, Some(calls));
    let mut writer = FailingWriter::new(4096, None);
    let ended = session(Global, &mut reader, &mut writer);
    is_whole(calls, done, (ended, StreamFault::Read), &writer)
}

#[test]
fn each_read_fails() {
    at_each_call(200, is_read);
}

/// Whether a session is complete whose writer fails after this many calls.
fn is_written(calls: u64, done: bool) -> bool {
    let mut reader = FailingReader::new(INPUT, 64, None);
    let mut writer = FailingWriter::new(5, Some(calls));
    let ended = session(Global, &mut reader, &mut writer);
    is_whole(calls, done, (ended, StreamFault::Write), &writer)
}

#[test]
fn each_write_fails() {
    at_each_call(200, is_written);
}

#[test]
fn a_writer_that_takes_nothing() {
    let mut reader = FailingReader::new(INPUT, 64, None);
    let mut writer = FailingWriter::new(0, None);
    let ended = session(Global, &mut reader, &mut writer);
    let told = (Err(StreamFault::Write), b"".as_slice());
    assert_eq!((ended, writer.written()), told);
}
