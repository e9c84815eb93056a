//! The files of dumps.

mod kept;
mod own;

pub(super) use kept::keep;

use crate::channels::atomic::AtomicU64;
use crate::harness::files::beside;
use std::path::{Path, PathBuf};
use std::sync::atomic::Ordering;
use std::{fs, io, process};
use yovanelum_record::clock::date;

/// What the names of all dumps begin with.
pub(super) const START: &str = "flight-";

/// Returns the name of a dump that this trigger begins at this time, in milliseconds since 1970,
/// without its ending. Names are in the order of their times.
pub(super) fn name(at: Option<u64>, trigger: &str) -> String {
    static NEXT: AtomicU64 = AtomicU64::new(1);
    let number = NEXT.fetch_add(1, Ordering::Relaxed);
    let process = if cfg!(target_family = "wasm") {
        0
    } else {
        process::id()
    };
    format!(
        "{START}{}-{process}-{number}-{trigger}",
        time_in_digits(at.unwrap_or_default())
    )
}

/// Returns a time as in `20261129T031245120Z`.
pub(super) fn time_in_digits(at: u64) -> String {
    let (days, ms) = (at / 86_400_000, at % 86_400_000);
    let (year, month, day) = date(days);
    let (hours, minutes) = (ms / 3_600_000, ms / 60_000 % 60);
    let (seconds, ms) = (ms / 1000 % 60, ms % 1000);
    format!("{year:04}{month:02}{day:02}T{hours:02}{minutes:02}{seconds:02}{ms:03}Z")
}

/// Writes a dump: its names, and then its journal, so that whoever finds a journal finds its names.
/// Each is whole when it gets its name. Returns the path of the journal.
///
/// They have texts of values, so nobody but the user of the process reads them, nor the folder, if
/// it is created for them.
pub(super) fn write(path: &Path, journal: &str, names: &str) -> io::Result<PathBuf> {
    if let Some(folder) = path.parent() {
        own::create_folder(folder).map_err(|error| of_path(folder, error))?;
    }
    let (journal_path, names_path) = (path.with_extension("journal"), path.with_extension("names"));
    write_whole(&names_path, names.as_bytes())?;
    write_whole(&journal_path, journal.as_bytes()).inspect_err(|_| {
        let _ = fs::remove_file(&names_path);
    })?;
    Ok(journal_path)
}

fn write_whole(path: &Path, bytes: &[u8]) -> io::Result<()> {
    let beside = beside(path);
    let written = own::write(&beside, bytes).and_then(|()| fs::rename(&beside, path));
    written.map_err(|error| {
        let _ = fs::remove_file(&beside);
        of_path(path, error)
    })
}

/// Returns an error that says which path it is about.
fn of_path(path: &Path, error: io::Error) -> io::Error {
    io::Error::new(error.kind(), format!("{}: {error}", path.display()))
}

#[cfg(test)]
mod tests {
    use super::*;

    #[test]
    fn a_time_is_a_date() {
        for (at, wanted) in [
            (0, "19700101T000000000Z"),
            (951_782_400_000, "20000229T000000000Z"),
            (951_868_799_999, "20000229T235959999Z"),
            (951_868_800_000, "20000301T000000000Z"),
            (1_764_385_965_120, "20251129T031245120Z"),
            (4_107_542_399_000, "21000228T235959000Z"),
            (4_107_542_400_000, "21000301T000000000Z"),
        ] {
            assert_eq!(time_in_digits(at), wanted);
        }
    }

    #[test]
    fn names_that_cannot_be_written_leave_the_journal_as_it_was() {
        let folder = crate::temporary::fresh("flight-names-first");
        let path = folder.join("flight-20260101T000000000Z-9-1");
        // A folder is in the names' place.
        fs::create_dir_all(path.with_extension("names").join("x")).unwrap();
        let journal = path.with_extension("journal");
        fs::write(&journal, "before").unwrap();
        assert!(write(&path, "j", "n").is_err());
        assert_eq!(fs::read_to_string(&journal).unwrap(), "before");
        fs::remove_dir_all(&folder).unwrap();
    }

    #[test]
    fn a_dump_that_cannot_be_written_leaves_nothing() {
        let folder = crate::temporary::fresh("flight-refused");
        let path = folder.join("flight-20260101T000000000Z-9-1");
        // A folder is in the journal's place.
        fs::create_dir_all(path.with_extension("journal").join("x")).unwrap();
        let error = write(&path, "j", "n").unwrap_err().to_string();
        let wanted = format!("{}: ", path.with_extension("journal").display());
        assert!(error.starts_with(&wanted), "{error}");
        assert_eq!(fs::read_dir(&folder).unwrap().count(), 1);
        fs::remove_dir_all(&folder).unwrap();
    }

    #[test]
    #[cfg(unix)]
    fn nobody_else_reads_a_dump_or_its_folder() {
        use std::os::unix::fs::PermissionsExt;
        let folder = crate::temporary::fresh("flight-modes");
        let path = folder.join("new").join("flight-20260101T000000000Z-9-1");
        let journal = write(&path, "j", "n").unwrap();
        let mode = |path: &Path| fs::metadata(path).unwrap().permissions().mode() & 0o777;
        let modes = [
            path.parent().unwrap(),
            &journal,
            &path.with_extension("names"),
        ]
        .map(mode);
        assert_eq!(modes, [0o700, 0o600, 0o600]);
        fs::remove_dir_all(&folder).unwrap();
    }
}
