//! Bytes from a reader and to a writer, with exactly which of them were read or written.
//!
//! A failed read or write is never retried. An interruption is a failure like any other.
// From crates/rw_lines/src/streams.rt, with its contracts as comments. //+

//~ ghost use Rattle.std.specs.Prelude.{◌≡◌, ◌<◌, take, length, option_to_list, IsNone, IfOk, IfErr, OnErr, OnOk};
//~ ghost use Rattle.std.specs.Io.KnownBytes.{Keeps, Appends, Consumes, IsAtEnd};
//~ ghost use Rattle.rw_lines.specs.Writing.{StopsWriting};

use crate::source::rw_law::NoMemory;
use crate::shim::alloc::{AllocError, AllocFailed};
use crate::shim::io;
//~ use thiserror::Error;

/// Why reading or writing stopped.
#[derive(Clone, Copy, Debug, PartialEq, Eq/*~, Error~*/)]
pub enum StreamFault {
    /// The reader failed.
//~     #[error("read fault")]
    Read,
    /// The writer failed, or wrote no byte.
//~     #[error("write fault")]
    Write,
    /// More bytes were read than are allowed. It is printed like a failed read.
//~     #[error("read fault")]
    TooMuch,
    /// An allocation failed.
//~     #[error("no memory")]
    NoMemory,
}

impl From<NoMemory> for StreamFault {
//~     ghost use Rattle.std.specs.Prelude.{◌≡◌};
//~     ghost use Rattle.rw_lines.specs.declared.streams.StreamFault.{StreamFault};

//~     ghost from_gives = { λ _ fault. fault ≡ StreamFault.NoMemory };

    fn from(_error: NoMemory) -> StreamFault {
        StreamFault::NoMemory
    }
}

impl From<AllocError> for StreamFault {
//~     ghost use Rattle.std.specs.Prelude.{◌≡◌};
//~     ghost use Rattle.rw_lines.specs.declared.streams.StreamFault.{StreamFault};

//~     ghost from_gives = { λ _ fault. fault ≡ StreamFault.NoMemory };

    fn from(_error: AllocError) -> StreamFault {
        StreamFault::NoMemory
    }
}

impl<T/*~: Drop~*/> From<AllocFailed<T>> for StreamFault {
//~     ghost use Rattle.std.specs.Prelude.{◌≡◌};
//~     ghost use Rattle.rw_lines.specs.declared.streams.StreamFault.{StreamFault};

//~     ghost from_gives = { λ _ fault. fault ≡ StreamFault.NoMemory };

    fn from(_error: AllocFailed<T>) -> StreamFault {
        StreamFault::NoMemory
    }
}

/// A writer failed, or wrote no byte, after it had written this many.
#[derive(Clone, Copy, Debug, PartialEq, Eq/*~, Error~*/)]
//~ #[error("write fault after {written} bytes")]
pub struct ShortWrite {
    pub written: usize,
}

/// Reads the next byte, or returns `None` at the end.
pub fn next_byte<R: io::Read>(reader: &mut R) -> Result<Option<u8>, StreamFault>
//~     ensures byte { IfOk result
//~         (λ o. Consumes (R.remaining reader.old) (R.remaining reader.new) (option_to_list o)) }
//~     ensures end { IfOk result (λ o. IsNone o → IsAtEnd (R.remaining reader.new)) }
//~     ensures err { IfErr result
//~         (λ e. (e ≡ StreamFault.Read) × Keeps (R.remaining reader.old) (R.remaining reader.new)) }
{
    let mut one = [0u8; 1];
    match reader.read(&mut one) {
        Ok(0) => Ok(None),
        Ok(_) => Ok(Some(one[0])),
        Err(_) => Err(StreamFault::Read),
    }
}

/// Writes all of the bytes. On `Err`, exactly `written` of them were written. This doesn't flush.
pub fn put<W: io::Write>(writer: &mut W, bytes: &[u8]) -> Result<(), ShortWrite>
//~     ensures ok { OnOk result (Appends (W.contents writer.old) (W.contents writer.new) bytes.now) }
//~     ensures short { IfErr result (λ e. e.written < length bytes.now) }
//~     ensures err { IfErr result
//~         (λ e. Appends (W.contents writer.old) (W.contents writer.new) (take e.written bytes.now)) }
{
    let mut written = 0;
    'each_write: while written < bytes.len() {
        match writer.write(&bytes[written..]) {
            Ok(0) | Err(_) => return Err(ShortWrite { written }),
            Ok(n) => written += n,
        }
    }
    Ok(())
}

/// Flushes a writer. Once per command is enough, so that many lines are written together.
pub fn flush<W: io::Write>(writer: &mut W) -> Result<(), StreamFault>
//~     ensures bytes { Keeps (W.contents writer.old) (W.contents writer.new) }
//~     ensures err { IfErr result (λ e. e ≡ StreamFault.Write) }
{
    writer.flush().map_err(|_| StreamFault::Write)
}

/// Writes all of the bytes, as `put` does. On `Err`, a prefix of them was written, of unknown length.
pub fn put_out<W: io::Write>(writer: &mut W, bytes: &[u8]) -> Result<(), StreamFault>
//~     ensures ok { OnOk result (Appends (W.contents writer.old) (W.contents writer.new) bytes.now) }
//~     ensures err { IfErr result (StopsWriting (W.contents writer.old) (W.contents writer.new) bytes.now) }
//~     ensures fault { IfErr result (λ e. e ≡ StreamFault.Write) }
//~     ensures some { OnErr result (0 < length bytes.now) }
{
    match put(writer, bytes) {
        Ok(()) => Ok(()),
        Err(_) => Err(StreamFault::Write),
    }
}

/// Writes all of the bytes, and flushes the writer. On `Err`, a prefix of them was written.
pub fn put_whole<W: io::Write>(writer: &mut W, bytes: &[u8]) -> Result<(), StreamFault>
//~     ensures ok { OnOk result (Appends (W.contents writer.old) (W.contents writer.new) bytes.now) }
//~     ensures err { IfErr result (StopsWriting (W.contents writer.old) (W.contents writer.new) bytes.now) }
//~     ensures fault { IfErr result (λ e. e ≡ StreamFault.Write) }
{
    put_out(writer, bytes)?;
    flush(writer)
}
impl core::fmt::Display for StreamFault { //+
    fn fmt(&self, f: &mut core::fmt::Formatter<'_>) -> core::fmt::Result { //+
        match self { //+
            StreamFault::Read => write!(f, "read fault"), //+
            StreamFault::Write => write!(f, "write fault"), //+
            StreamFault::TooMuch => write!(f, "read fault"), //+
            StreamFault::NoMemory => write!(f, "no memory"), //+
        } //+
    } //+
} //+
impl core::error::Error for StreamFault {} //+
impl core::fmt::Display for ShortWrite { //+
    fn fmt(&self, f: &mut core::fmt::Formatter<'_>) -> core::fmt::Result { //+
        match self { //+
            ShortWrite { written, .. } => write!(f, "write fault after {written} bytes"), //+
        } //+
    } //+
} //+
impl core::error::Error for ShortWrite {} //+
