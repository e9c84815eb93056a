//! Statuses, and what a run writes on its three streams.

use super::endings::{Ending, ends_as};
use proved::Global;
use proved::rw_console::Outcome;
use proved::rw_lines::StreamFault;
use proved::rw_program::session_on;
use proved::rw_program::{error_line, status};
use proved::rw_script::{ScriptFault, ScriptFaultKind};
use support::devices::{FailingReader, FailingWriter};

const REFUSED: Outcome = Outcome::Refused(ScriptFault {
    line: 1,
    kind: ScriptFaultKind::NoChannels,
});

/// How a session ends, its status, and the line that reports it.
static STATUSES: [(Result<Outcome, StreamFault>, u8, &str); 7] = [
    (Ok(Outcome::Done), 0, ""),
    (Ok(REFUSED), 1, ""),
    (Ok(Outcome::Waited(2)), 3, ""),
    (Err(StreamFault::Read), 4, "read fault\n"),
    (Err(StreamFault::Write), 4, "write fault\n"),
    (Err(StreamFault::TooMuch), 4, "read fault\n"),
    (Err(StreamFault::NoMemory), 5, "no memory\n"),
];

#[test]
fn answers_statuses() {
    for (ended, number, line) in &STATUSES {
        let found = (status(*ended), error_line(*ended));
        assert_eq!(found, (*number, *line), "{line}");
    }
}

/// The input, how many reads and writes succeed, and how the run ends.
type Case = (&'static [u8], Option<u64>, Option<u64>, Ending);

const WALK: &[u8] = b"broadcast 2\n0 0 send 0 1\n---\nback\n";

static CASES: [Case; 5] = [
    (WALK, None, None, (0, b"place 0 of 1\n", b"")),
    (
        b"broadcast 0",
        None,
        None,
        (1, b"script fault 1 bad-capacity\n", b""),
    ),
    (
        b"broadcast 2\n0 0 recv 1\n0 0 send 0 1\n---\nlist\nback\n",
        None,
        None,
        (3, b"would wait 2\nout of range, place 0 of 0\n", b""),
    ),
    (WALK, Some(0), None, (4, b"", b"read fault\n")),
    (WALK, None, Some(0), (4, b"", b"write fault\n")),
];

/// Asserts that a run on three streams ends in this way.
fn is_run((input, reads, writes, ending): &Case) {
    let mut reader = FailingReader::new(input, 64, *reads);
    let mut out = FailingWriter::new(64, *writes);
    let mut err = FailingWriter::new(64, None);
    let status = session_on(Global, &mut reader, &mut out, &mut err);
    ends_as("a run", status, &out, &err, ending);
}

#[test]
fn runs_on_three_streams() {
    for case in &CASES {
        is_run(case);
    }
}
