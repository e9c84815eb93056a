//! A writer that fails.

use crate::devices::calls::fails;
use proved::Global;
use std::io::{Error, ErrorKind, Result, Write};

/// Stores what is written, a few bytes per call, and fails at one call, which writes nothing.
///
/// Like a buffer, it passes on what it holds only at a flush, so that a caller that forgets to flush is noticed. It fails with
/// an interruption and succeeds afterwards, so that a caller that retries is noticed.
pub struct FailingWriter {
    kept: proved::Vec<u8>,
    most: usize,
    calls: Option<u64>,
    flushes: u64,
    handed: usize,
}

impl FailingWriter {
    /// Creates a writer that writes at most `most` bytes per call, which may be 0. `calls` is how many calls, including
    /// flushes, succeed before the one that fails. With `None` all succeed.
    pub fn new(most: usize, calls: Option<u64>) -> FailingWriter {
        FailingWriter {
            kept: proved::Vec::new(Global),
            most,
            calls,
            flushes: 0,
            handed: 0,
        }
    }

    /// Returns the bytes that were written.
    pub fn written(&self) -> &[u8] {
        self.kept.as_slice()
    }

    /// Returns those of them that were passed on, by the last flush that succeeded.
    pub fn handed_on(&self) -> &[u8] {
        &self.kept.as_slice()[..self.handed]
    }

    /// Returns how many flushes succeeded.
    pub fn flushes(&self) -> u64 {
        self.flushes
    }
}

impl Write for FailingWriter {
    /// It fails at that call, and if memory runs out.
    fn write(&mut self, buf: &[u8]) -> Result<usize> {
        if fails(&mut self.calls) {
            return Err(Error::from(ErrorKind::Interrupted));
        }
        let count = buf.len().min(self.most);
        let kept = self.kept.extend_from_slice(&buf[..count]);
        kept.map_err(|_| ErrorKind::OutOfMemory)?;
        Ok(count)
    }

    fn flush(&mut self) -> Result<()> {
        if fails(&mut self.calls) {
            return Err(Error::from(ErrorKind::Interrupted));
        }
        self.flushes = self.flushes.saturating_add(1);
        self.handed = self.kept.len();
        Ok(())
    }
}
