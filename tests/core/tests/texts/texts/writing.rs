//! Runs that are written, and writers that fail.

use crate::shared::written;
use proved::Global;
use proved::rw_journal::Run;
use proved::rw_law::Payload;
use proved::rw_text::WriteFault;
use proved::rw_text::read;

/// The text of three entries, as it is written.
pub const SMALL: &[u8] =
    b"ttd-journal 2\nbroadcast 4\nsteps\n1 0 0 send 0 7 = sent 1\n2 0 0 try-recv 1 = value 7\n3 0 0 drop 0 = dropped\nend\n";

/// The same in version 1.
pub const OLD: &[u8] =
    b"ttd-journal 1\nbroadcast 4\nsteps\n1 0 0 send 0 7 = sent 1\n2 0 0 try-recv 1 = value 7\n3 0 0 drop 0 = dropped\nend\n";

/// Two channels, with most of the words.
const LARGE: &[u8] =
    b"ttd-journal 2\nbroadcast 3\nwatch 1\nsteps\n1 0 0 send 0 1 = sent 1\n1 1 1 drop 1 = dropped\n2 0 0 send 0 2 = sent 1\n3 0 0 send 0 3 = sent 1\n4 0 0 send 0 4 = sent 1\n5 0 0 send 0 5 = sent 1\n6 0 0 try-recv 1 = lagged 1\n6 1 1 is-closed 0 = flag yes\n7 0 0 sender-len 0 = count 4\n7 1 1 closed 0 = done\n8 1 1 send 0 2 = no-receivers 2\n9 1 1 send-replace 0 3 = old 1\n10 1 1 modify 0 5 no = told no\n11 1 1 subscribe 0 = new 2\n12 1 1 borrow 2 = value 5\n13 63 0 subscribe 9 = unknown\nend\n";

/// Reads a text and writes its run. Returns the result of the write, and what was written.
fn rewritten<V: Payload>(
    text: &[u8],
    most: usize,
    calls: Option<u64>,
) -> (Result<u64, WriteFault>, Vec<u8>) {
    let run: Run<V> = read(Global, text).unwrap();

    written(&run, most, calls)
}

/// Asserts that the write of a text's run has this result, and writes these bytes. The writer accepts at most `most` bytes at a
/// call, and fails once, after `calls` calls.
fn is_written(
    text: &[u8],
    (most, calls): (usize, Option<u64>),
    (answer, want): (Result<u64, WriteFault>, &[u8]),
) {
    let (found, bytes) = rewritten::<u64>(text, most, calls);
    assert_eq!((found, bytes.as_slice()), (answer, want));
    drop(bytes);
}

/// Texts, and the texts that are written for their runs. An old text is written in the new version.
static TEXTS: [(&[u8], &[u8]); 3] = [(SMALL, SMALL), (LARGE, LARGE), (OLD, SMALL)];

#[test]
fn what_is_read_is_written_again() {
    for (text, want) in &TEXTS {
        let told = (Ok(want.len() as u64), *want);
        is_written(text, (100, None), told);
    }
}

#[test]
fn a_writer_fails_at_each_byte() {
    for n in 0..110 {
        let told = (Err(WriteFault(n)), &SMALL[..n as usize]);
        is_written(SMALL, (1, Some(n)), told);
    }
    let none = (Err(WriteFault(0)), b"".as_slice());
    is_written(SMALL, (0, None), none)
}
