//! Streams, and buffers in front of them whose memory can be refused.
//!
//! In a clause `R.remaining` is what a reader has left, and `W.contents` what was given to a
//! writer.

use super::alloc::Global;
use super::rt::Print;
use super::vec::Vec;
pub use std::io::{Error, ErrorKind, Read, Result, Write};

/// How many bytes `BufReader::new` has room for, in Rattle as in Rust.
const CAPACITY: usize = 8192;

/// Returns standard output as a writer. Rattle's has no clause.
pub fn writer<R: Print>(rt: &R) -> R::Writer {
    rt.writer()
}

/// A reader with a buffer behind it.
#[derive(Debug)]
pub struct BufReader<R> {
    inner: R,
    /// Its bytes from `start` to `end` were read and not yet taken.
    buffer: Vec<u8>,
    start: usize,
    end: usize,
}

impl<R: Read> BufReader<R> {
    /// Rattle's clauses: `IfOk result (λ r. reader_inner r ≡ inner)`,
    /// `IfOk result (λ r. reader_buffer r ≡ [])`, `IfOk result (λ r. reader_capacity r ≡ 8192)`,
    /// `IfErr result (λ e. error_kind e ≡ ErrorKind.OutOfMemory)`.
    pub fn new(alloc: Global, inner: R) -> Result<BufReader<R>> {
        Ok(BufReader {
            inner,
            buffer: Vec::from_elem(alloc, 0, CAPACITY)?,
            start: 0,
            end: 0,
        })
    }
}

impl<R: Read> Read for BufReader<R> {
    /// Rattle's clause: `Ok(n)` takes the first `n` bytes of what is left, which is what the buffer
    /// has and then what the reader has. It reads from the reader at most once, and only if the
    /// buffer has no byte.
    fn read(&mut self, bytes: &mut [u8]) -> Result<usize> {
        if self.start == self.end {
            if bytes.len() >= CAPACITY {
                return self.inner.read(bytes);
            }
            (self.start, self.end) = (0, 0);
            self.end = self.inner.read(&mut self.buffer)?;
        }
        let held = &self.buffer[self.start..self.end];
        let count = held.len().min(bytes.len());
        bytes[..count].copy_from_slice(&held[..count]);
        self.start += count;
        Ok(count)
    }
}

/// A writer with a buffer in front of it.
#[derive(Debug)]
pub struct BufWriter<W: Write> {
    inner: W,
    buffer: Vec<u8>,
}

impl<W: Write> BufWriter<W> {
    /// Rattle's clauses: `IfOk result (λ w. writer_inner w ≡ inner)`,
    /// `IfOk result (λ w. writer_buffer w ≡ [])`,
    /// `IfOk result (λ w. writer_capacity w ≡ capacity)`,
    /// `IfErr result (λ e. error_kind e ≡ ErrorKind.OutOfMemory)`.
    pub fn with_capacity(alloc: Global, capacity: usize, inner: W) -> Result<BufWriter<W>> {
        let buffer = Vec::with_capacity(alloc, capacity)?;
        Ok(BufWriter { inner, buffer })
    }

    /// Writes what the buffer has. What a failure leaves unwritten stays in it.
    ///
    /// Rattle's clauses: `OnOk result (writer_buffer S' ≡ [])`, and the contents stay.
    fn write_out(&mut self) -> Result<()> {
        let mut written = 0;
        let ended = loop {
            if written == self.buffer.len() {
                break Ok(());
            }
            match self.inner.write(&self.buffer[written..]) {
                Ok(0) => break Err(ErrorKind::WriteZero.into()),
                Ok(count) => written += count,
                Err(error) if error.kind() == ErrorKind::Interrupted => {}
                Err(error) => break Err(error),
            }
        };
        let left = self.buffer.len() - written;
        self.buffer.copy_within(written.., 0);
        self.buffer.truncate(left);
        ended
    }
}

impl<W: Write> Write for BufWriter<W> {
    /// Rattle's clause: `Ok(n)` adds the first `n` bytes to the contents, and an error adds none.
    fn write(&mut self, bytes: &[u8]) -> Result<usize> {
        if bytes.len() > self.buffer.capacity() - self.buffer.len() {
            self.write_out()?;
        }
        if bytes.len() >= self.buffer.capacity() {
            return self.inner.write(bytes);
        }
        self.buffer.extend_from_slice(bytes)?;
        Ok(bytes.len())
    }

    /// Rattle's clauses: the contents stay, and `OnOk result (writer_buffer S' ≡ [])`.
    fn flush(&mut self) -> Result<()> {
        self.write_out()?;
        self.inner.flush()
    }
}

impl<W: Write> Drop for BufWriter<W> {
    /// Writes what the buffer has, as Rattle's does. A failure is ignored.
    fn drop(&mut self) {
        let _ = self.write_out();
    }
}
