//! The runtime's handle, and what it gives.
//!
//! The sources name what they need of it by these traits, as in Rattle.

use super::alloc::Global;
use super::refused::without_refusals;
use super::standard_streams;
use super::sync::Wait;
use super::thread::Threads;
use std::io::{self, Read, Write};

/// The leave to do all that a program may do. It has no bytes.
#[derive(Clone, Copy, Debug)]
pub struct HostRuntime;

/// The leave to allocate.
pub trait AllocGlobal {
    /// Returns the allocator. Rattle's has no clause.
    fn alloc(&self) -> Global {
        Global
    }
}

/// The leave to open files.
pub trait Files {
    type File: Read;

    /// Opens a file for reading. Rattle's has no clause: what a file holds, no contract says.
    fn open_file(&self, path: &str) -> io::Result<Self::File>;
}

/// The leave to read standard input.
pub trait Input {
    type Reader: Read;

    /// Returns standard input. Rattle's has no clause.
    fn reader(&self) -> Self::Reader;
}

/// The leave to write to standard output.
pub trait Print {
    type Writer: Write;

    /// Returns standard output, as Rattle's `io::writer` does.
    fn writer(&self) -> Self::Writer;
}

/// The leave to read the words of the command line.
pub trait Env {}

impl AllocGlobal for HostRuntime {}

impl Files for HostRuntime {
    type File = std::fs::File;

    fn open_file(&self, path: &str) -> io::Result<std::fs::File> {
        std::fs::File::open(path)
    }
}

impl Input for HostRuntime {
    type Reader = StandardInput;

    fn reader(&self) -> StandardInput {
        StandardInput
    }
}

impl Print for HostRuntime {
    type Writer = StandardOutput;

    fn writer(&self) -> StandardOutput {
        StandardOutput
    }
}

impl Env for HostRuntime {}
impl Threads for HostRuntime {}
impl Wait for HostRuntime {}

/// Standard input.
#[derive(Clone, Copy, Debug)]
pub struct StandardInput;

impl Read for StandardInput {
    /// Rattle's clause: `Ok(n)` takes the first `n` bytes of what is left, and an error takes none.
    ///
    /// A read of no bytes waits for nothing. Rust's own would fill its buffer first.
    fn read(&mut self, bytes: &mut [u8]) -> io::Result<usize> {
        standard_streams::check_input()?;
        if bytes.is_empty() {
            return without_refusals(standard_streams::check_is_no_folder).map(|()| 0);
        }
        without_refusals(|| io::stdin().lock().read(bytes))
    }
}

/// Standard output.
#[derive(Clone, Copy, Debug)]
pub struct StandardOutput;

impl Write for StandardOutput {
    /// Rattle's clause: `Ok(n)` adds the first `n` bytes to the contents, and an error adds none.
    fn write(&mut self, bytes: &[u8]) -> io::Result<usize> {
        standard_streams::check_output()?;
        without_refusals(|| io::stdout().write(bytes))
    }

    fn flush(&mut self) -> io::Result<()> {
        without_refusals(|| io::stdout().flush())
    }
}
