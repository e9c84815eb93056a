//! Files.

use super::refused::without_refusals;
use super::rt::Files;
use std::io;

/// Opens a file for reading. Rattle's has no clause: what a file holds, no contract says.
pub fn open<R: Files>(rt: &R, path: &str) -> io::Result<R::File> {
    without_refusals(|| rt.open_file(path))
}
