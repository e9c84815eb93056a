//! The files of a journal, as replays, the command and the debug adapter read them: the text, and
//! the names beside it.

use super::{Sidecar, TestId, checksum};
use std::fs::{self, File};
use std::io::{self, Read};
use std::path::Path;

/// How many bytes a file has at most, as for `ttd`.
const MOST_BYTES: u64 = 268_435_456;

/// Reads a file, unless it has too many bytes.
///
/// # Errors
///
/// Returns why it can't be read, or that it has too many bytes.
pub fn read_whole(path: &Path) -> io::Result<Vec<u8>> {
    let mut text = vec![];
    let mut file = File::open(path)?.take(MOST_BYTES + 1);
    if file.read_to_end(&mut text)? as u64 > MOST_BYTES {
        Err(io::Error::other("it has more than 268,435,456 bytes"))
    } else {
        Ok(text)
    }
}

/// Returns which test made the run of the journal at this path, if the names beside it say so.
pub fn test_beside(path: &Path) -> Option<TestId> {
    let text = fs::read_to_string(path.with_extension("names")).ok()?;
    Sidecar::read(&text).ok()?.ending.test
}

impl Sidecar {
    /// Reads the names beside the journal at this path, whose text this is. Returns them with their
    /// own text, or `None` if there is no such file.
    ///
    /// # Errors
    ///
    /// Returns why they can't be read, or what is wrong with them.
    pub fn beside(path: &Path, journal: &[u8]) -> Result<Option<(Sidecar, String)>, String> {
        match fs::read_to_string(path.with_extension("names")) {
            Ok(text) => Ok(Some((Sidecar::of_journal(&text, journal)?, text))),
            Err(error) if error.kind() == io::ErrorKind::NotFound => Ok(None),
            Err(error) => Err(error.to_string()),
        }
    }

    /// Reads the text of a file of names that is beside this whole journal.
    ///
    /// # Errors
    ///
    /// Returns what is wrong with the text, or that it says that it is of another journal.
    pub fn of_journal(text: &str, journal: &[u8]) -> Result<Sidecar, String> {
        let names = Sidecar::read(text)?;
        if (names.ending.journal).is_some_and(|sum| sum != checksum(journal)) {
            return Err("it has the names of another journal".to_string());
        }
        Ok(names)
    }
}
