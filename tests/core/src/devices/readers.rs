//! A reader that fails.

use crate::devices::calls::fails;
use std::io::{Error, ErrorKind, Read, Result};

/// Reads the bytes of a slice, a few per call, and fails at one call, which reads nothing.
///
/// It fails with an interruption and succeeds afterwards, so that a caller that retries is noticed.
pub struct FailingReader<'a> {
    rest: &'a [u8],
    most: usize,
    calls: Option<u64>,
}

impl<'a> FailingReader<'a> {
    /// Creates a reader of these bytes that reads at most `most` per call. `calls` is how many calls succeed before the one
    /// that fails. With `None` all succeed.
    pub fn new(bytes: &'a [u8], most: usize, calls: Option<u64>) -> FailingReader<'a> {
        FailingReader {
            rest: bytes,
            most,
            calls,
        }
    }

    /// Returns the bytes that weren't read yet.
    pub fn unread(&self) -> &[u8] {
        self.rest
    }
}

impl<'a> Read for FailingReader<'a> {
    fn read(&mut self, buf: &mut [u8]) -> Result<usize> {
        if fails(&mut self.calls) {
            return Err(Error::from(ErrorKind::Interrupted));
        }
        let count = self.rest.len().min(buf.len()).min(self.most);
        let (front, rest) = self.rest.split_at(count);
        buf[..count].copy_from_slice(front);
        self.rest = rest;
        Ok(count)
    }
}
