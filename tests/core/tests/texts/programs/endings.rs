//! How runs of the program end.

use support::devices::FailingWriter;

/// A status, the output that was flushed, and what was written to the stream for errors.
pub type Ending = (u8, &'static [u8], &'static [u8]);

/// Asserts that a run ends in this way.
pub fn ends_as(case: &str, status: u8, out: &FailingWriter, err: &FailingWriter, ending: &Ending) {
    assert_eq!((status, out.handed_on(), err.written()), *ending, "{case}");
}
