//! The files of a test: the journal, the names and the page, which are replaced together.

mod lock_file;
mod name;
mod own;

pub(super) use name::file_name;
pub(crate) use own::begin;

use crate::channels::atomic::AtomicU64;
use crate::harness::program::Program;
use crate::schedule::explore;
use lock_file::LockFile;
use std::hash::{BuildHasher, Hasher, RandomState};
use std::path::{Path, PathBuf};
use std::sync::atomic::Ordering;
use std::{fs, io, process};

/// What each file of a test is: what its name ends with, and its bytes. `None` stands for a file
/// that is to be gone.
pub(crate) type Files<'a> = [(&'a str, Option<&'a [u8]>)];

/// Returns the folder for the files of the tests of this program. No other program of the build has
/// the same.
pub(super) fn folder() -> PathBuf {
    let program = Program::this();
    let package = program.package.as_deref().unwrap_or("no package");
    let target = explore::target_folder().unwrap_or_else(|| program.target_folder.clone());
    let folder = target.join("yovanelum");
    folder
        .join(file_name(package))
        .join(file_name(&program.target.folder_name()))
}

/// Replaces the files of a test, of which this is the journal, and returns the journal that was
/// written. It is another one, beside this one, where a process that runs the same test at the same
/// time has written this one, or another test with this name does. `test` is the number of the test
/// in this process.
///
/// All are written before the first one is replaced, so if one can't be written, all are as before.
///
/// # Errors
///
/// Returns an error if a file or the folder can't be written.
pub(crate) fn replace(path: &Path, test: u64, files: &Files<'_>) -> io::Result<PathBuf> {
    path.parent().map_or(Ok(()), fs::create_dir_all)?;
    let mut written = Vec::with_capacity(files.len());
    for (extension, bytes) in files {
        written.push(Written::new(path, extension, *bytes)?);
    }
    let _locked = LockFile::acquire(path);
    let own = own::in_place_of(path, test);
    written.into_iter().try_for_each(|file| file.put(&own))?;
    Ok(own)
}

/// A file that is written beside the one that it is to replace. If it doesn't, it is removed.
struct Written<'a> {
    beside: Option<PathBuf>,
    extension: &'a str,
}

impl<'a> Written<'a> {
    fn new(path: &Path, extension: &'a str, bytes: Option<&[u8]>) -> io::Result<Written<'a>> {
        let Some(bytes) = bytes else {
            return Ok(Written {
                beside: None,
                extension,
            });
        };
        let written = Written {
            beside: Some(beside(&path.with_extension(extension))),
            extension,
        };
        // `written` is dropped on a failure, and removes what there is of the file.
        let failed = written
            .beside
            .as_ref()
            .map(|beside| fs::write(beside, bytes));
        failed.unwrap_or(Ok(())).map(|()| written)
    }

    /// Replaces the file beside this journal.
    fn put(mut self, journal: &Path) -> io::Result<()> {
        let path = journal.with_extension(self.extension);
        match self.beside.take() {
            Some(beside) => fs::rename(&beside, &path).inspect_err(|_| {
                let _ = fs::remove_file(&beside);
            }),
            None => match fs::remove_file(&path) {
                Err(error) if error.kind() != io::ErrorKind::NotFound => Err(error),
                _ => Ok(()),
            },
        }
    }
}

impl Drop for Written<'_> {
    fn drop(&mut self) {
        if let Some(beside) = &self.beside {
            let _ = fs::remove_file(beside);
        }
    }
}

/// Returns a path beside this one that nobody else writes to.
pub(super) fn beside(path: &Path) -> PathBuf {
    static NEXT: AtomicU64 = AtomicU64::new(0);
    let number = NEXT.fetch_add(1, Ordering::Relaxed);
    let mut name = path.file_name().unwrap_or_default().to_os_string();
    name.push(format!(".{}-{number}.part", process_number()));
    path.with_file_name(name)
}

/// Returns the number of this process. WebAssembly has none, and to ask for it would panic. A
/// random number is in its place there.
fn process_number() -> u64 {
    if cfg!(target_family = "wasm") {
        RandomState::new().build_hasher().finish()
    } else {
        process::id().into()
    }
}

#[cfg(test)]
mod tests {
    use super::*;
    use crate::temporary::{files_in, fresh};
    use std::thread;

    #[test]
    fn a_file_that_cannot_be_written_leaves_all_as_before() {
        let folder = fresh("files-kept");
        let path = folder.join("x.journal");
        let old: [(_, Option<&[u8]>); 3] = [
            ("journal", Some(b"j1")),
            ("names", Some(b"n1")),
            ("html", Some(b"h1")),
        ];
        replace(&path, 0, &old).unwrap();
        // No system takes a name as long as this one.
        let long = "x".repeat(300);
        let faulty: [(_, Option<&[u8]>); 2] = [("journal", Some(b"j2")), (&long, Some(b""))];
        assert!(replace(&path, 0, &faulty).is_err());
        assert_eq!(fs::read(&path).unwrap(), b"j1");
        assert_eq!(files_in(&folder), ["x.html", "x.journal", "x.names"]);
        let without: [(_, Option<&[u8]>); 2] = [("journal", Some(b"j3")), ("html", None)];
        replace(&path, 0, &without).unwrap();
        assert_eq!(fs::read(&path).unwrap(), b"j3");
        assert_eq!(files_in(&folder), ["x.journal", "x.names"]);
        fs::remove_dir_all(&folder).unwrap();
    }

    #[test]
    #[cfg_attr(target_family = "wasm", ignore = "WebAssembly has no threads")]
    fn files_that_are_replaced_side_by_side_are_of_one() {
        let folder = fresh("files-of-one");
        let path = folder.join("x.journal");
        let threads = [b"a", b"b", b"c", b"d"].map(|byte| {
            let path = path.clone();
            thread::spawn(move || {
                for _ in 0..100 {
                    let bytes: Option<&[u8]> = Some(byte);
                    let files = [("journal", bytes), ("names", bytes), ("html", bytes)];
                    replace(&path, 0, &files).unwrap();
                    // While nobody replaces them.
                    let locked = LockFile::acquire(&path);
                    let read = ["journal", "names", "html"]
                        .map(|extension| fs::read(path.with_extension(extension)).unwrap());
                    drop(locked);
                    assert!(read[0] == read[1] && read[1] == read[2], "{read:?}");
                }
            })
        });
        for thread in threads {
            thread.join().unwrap();
        }
        assert_eq!(files_in(&folder), ["x.html", "x.journal", "x.names"]);
        fs::remove_dir_all(&folder).unwrap();
    }
}
