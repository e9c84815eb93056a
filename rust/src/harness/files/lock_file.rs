//! A lock between threads and processes. Between processes it is a file: who creates it has the
//! lock.

use super::process_number;
use crate::channels::lock::lock;
use std::fs::{self, OpenOptions};
use std::io::Write;
use std::path::{Path, PathBuf};
use std::sync::{Mutex, MutexGuard};
use std::time::{Duration, Instant};
use std::{io, thread};

/// How long the file of another process is left alone, whether or not that one still runs.
const PATIENCE: Duration = Duration::from_secs(2);

/// The lock between the threads of this process.
static WITHIN: Mutex<()> = Mutex::new(());

/// The lock for the files beside a journal, which is released when this is dropped.
pub(super) struct LockFile {
    created: Option<PathBuf>,
    _within: MutexGuard<'static, ()>,
}

impl LockFile {
    /// Waits until nobody else has the lock. Its file isn't created where that can't be done, or
    /// takes too long. Then the files are replaced all the same.
    pub(super) fn acquire(journal: &Path) -> LockFile {
        let within = lock(&WITHIN);
        LockFile {
            created: create(journal.with_extension("lock")),
            _within: within,
        }
    }
}

/// Creates the file, once no other process has it.
fn create(path: PathBuf) -> Option<PathBuf> {
    let began = Instant::now();
    while began.elapsed() < 4 * PATIENCE {
        let created = OpenOptions::new().write(true).create_new(true).open(&path);
        match created.map_err(|error| error.kind()) {
            Ok(mut file) => {
                // Without it, the file's age alone says whether it is left.
                let _ = write!(file, "{}", process_number());
                return Some(path);
            }
            Err(io::ErrorKind::AlreadyExists) => {}
            // Windows says so of a file that another process has removed and still has open.
            Err(io::ErrorKind::PermissionDenied) if cfg!(windows) => {}
            Err(_) => return None,
        }
        if is_left(&path) {
            let _ = fs::remove_file(&path);
        }
        thread::sleep(Duration::from_millis(1));
    }
    None
}

/// Whether a process has ended before it could remove its file. To replace files takes much less
/// than the time that a file is left alone, but on a busy machine a process may not run for as
/// long.
fn is_left(path: &Path) -> bool {
    let created = fs::metadata(path).and_then(|file| file.modified());
    let age = created.ok().and_then(|created| created.elapsed().ok());
    age.is_some_and(|age| age > PATIENCE) && !is_of_a_running_process(path)
}

/// Whether the process that has created the file still runs. Only Linux can say so.
fn is_of_a_running_process(path: &Path) -> bool {
    let number = fs::read_to_string(path).ok();
    let number = number.and_then(|number| number.parse::<u64>().ok());
    number.is_some_and(|number| Path::new(&format!("/proc/{number}")).exists())
}

impl Drop for LockFile {
    fn drop(&mut self) {
        if let Some(path) = &self.created {
            let _ = fs::remove_file(path);
        }
    }
}

#[cfg(test)]
mod tests {
    use super::*;
    use std::fs::File;
    use std::time::SystemTime;

    /// Has a file be of long ago.
    fn make_old(path: &Path) {
        let long_ago = SystemTime::now() - 100 * PATIENCE;
        let file = File::options().append(true).open(path).unwrap();
        file.set_modified(long_ago).unwrap();
    }

    #[test]
    fn a_lock_that_a_dead_process_has_left_is_removed_in_the_end() {
        let path = crate::temporary::path("lock.journal");
        let lock = path.with_extension("lock");
        fs::write(&lock, "").unwrap();
        make_old(&lock);
        drop(LockFile::acquire(&path));
        assert!(!lock.exists());
        let locked = LockFile::acquire(&path);
        assert!(lock.exists());
        drop(locked);
        assert!(!lock.exists());
    }

    #[test]
    #[cfg_attr(
        not(target_os = "linux"),
        ignore = "only Linux says whether a process runs"
    )]
    fn a_lock_of_a_process_that_runs_is_left_alone() {
        let path = crate::temporary::path("running.journal");
        let lock = path.with_extension("lock");
        let locked = LockFile::acquire(&path);
        make_old(&lock);
        assert!(!is_left(&lock));
        drop(locked);
        // No process has this number. This thread may not run until the file is old.
        let is_young = |_| {
            fs::write(&lock, u64::MAX.to_string()).unwrap();
            !is_left(&lock)
        };
        assert!((0..20).any(is_young));
        make_old(&lock);
        assert!(is_left(&lock));
        fs::remove_file(&lock).unwrap();
    }
}
