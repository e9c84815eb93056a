//! Which files a test writes where others have the same name: another process that runs it at the
//! same time, or another recorder of this one. Each keeps its own.

use crate::channels::lock::lock;
use std::fs;
use std::path::{Path, PathBuf};
use std::sync::{Mutex, OnceLock};
use std::time::{Duration, SystemTime};
use yovanelum_record::by_text::TextMap;
use yovanelum_record::listed::IntoList;

/// How many of the same name keep their files. More of them replace those of the last.
const MOST_OF_A_NAME: usize = 16;

/// How much the time of a file may be behind the clock: a tick of the kernel's, of which there are
/// 100 a second at least.
const TICK: Duration = Duration::from_millis(10);

/// When this process has made its first recorder of a test.
static BEGAN: OnceLock<SystemTime> = OnceLock::new();

/// A journal that a test of this process writes.
struct OwnJournal {
    // The one that it would write alone.
    alone: PathBuf,
    // The test's number.
    test: u64,
    written: PathBuf,
}

/// The journals that the tests of this process write, by those that each would write alone.
static OWN: Mutex<TextMap<Vec<OwnJournal>>> = Mutex::new(TextMap::new());

/// Notes that a test begins.
pub(crate) fn begin() {
    // A system without files may have no clock, and to ask for its time would panic.
    if !cfg!(target_os = "unknown") {
        BEGAN.get_or_init(SystemTime::now);
    }
}

/// Returns the journal that the test with this number writes in place of this one: this one, or
/// `NAME~2.journal` and so on where another test of this process has it, or another process has
/// written it since the first test began here. It is the same each time. Between processes, the
/// lock of the files has to be held.
pub(super) fn in_place_of(path: &Path, test: u64) -> PathBuf {
    let mut own = lock(&OWN);
    // Paths that are no texts may be one as texts.
    let alike = own.get_or_default(&path.to_string_lossy());
    let of_path = || alike.iter().filter(|own| own.alone == path);
    if let Some(known) = of_path().find(|own| own.test == test) {
        return known.written.clone();
    }
    let taken: Vec<_> = of_path().map(|own| own.written.clone()).listed();
    let written = first_that_is_free(path, &taken, BEGAN.get().copied());
    alike.push(OwnJournal {
        alone: path.to_path_buf(),
        test,
        written: written.clone(),
    });
    written
}

/// Returns the first of the numbered journals that nobody has written or will write.
fn first_that_is_free(path: &Path, taken: &[PathBuf], began: Option<SystemTime>) -> PathBuf {
    let mut paths = (1..MOST_OF_A_NAME).map(|number| numbered(path, number));
    paths
        .find(|path| !taken.contains(path) && !is_written_since(path, began))
        .unwrap_or_else(|| numbered(path, MOST_OF_A_NAME))
}

/// No name of a test has `~` in its file's.
fn numbered(path: &Path, number: usize) -> PathBuf {
    if number == 1 {
        return path.to_path_buf();
    }
    let mut name = path.file_stem().unwrap_or_default().to_os_string();
    name.push(format!("~{number}.journal"));
    path.with_file_name(name)
}

fn is_written_since(path: &Path, began: Option<SystemTime>) -> bool {
    let written = fs::metadata(path).and_then(|file| file.modified());
    match (written, began) {
        (Ok(written), Some(began)) => written >= began.checked_sub(TICK).unwrap_or(began),
        _ => false,
    }
}

#[cfg(test)]
mod tests {
    use super::*;

    #[test]
    fn a_journal_that_another_process_has_written_meanwhile_is_kept() {
        let path = crate::temporary::path("own.journal");
        let second = numbered(&path, 2);
        assert!(second.to_str().unwrap().ends_with("own~2.journal"));
        let began = Some(SystemTime::now());
        assert_eq!(first_that_is_free(&path, &[], began), path);
        fs::write(&path, "another's").unwrap();
        assert_eq!(first_that_is_free(&path, &[], began), second);
        assert_eq!(first_that_is_free(&path, &[], None), path);
        // One that was written before this process began is replaced.
        let later = began.map(|began| began + Duration::from_secs(60));
        assert_eq!(first_that_is_free(&path, &[], later), path);
        fs::remove_file(&path).unwrap();
    }

    #[test]
    fn after_the_last_number_its_files_are_replaced() {
        let path = crate::temporary::path("crowd.journal");
        let began = Some(SystemTime::now());
        let all: Vec<_> = (1..=MOST_OF_A_NAME).map(|n| numbered(&path, n)).collect();
        for path in &all {
            fs::write(path, "").unwrap();
        }
        assert_eq!(
            first_that_is_free(&path, &[], began),
            all[MOST_OF_A_NAME - 1]
        );
        for path in all {
            fs::remove_file(path).unwrap();
        }
    }

    #[test]
    fn a_test_writes_the_same_files_each_time_and_no_other_ones() {
        let path = crate::temporary::path("twice.journal");
        begin();
        assert_eq!(in_place_of(&path, 7), path);
        fs::write(&path, "own").unwrap();
        assert_eq!(in_place_of(&path, 7), path);
        assert_eq!(in_place_of(&path, 8), numbered(&path, 2));
        assert_eq!(in_place_of(&path, 5), numbered(&path, 3));
        assert_eq!(in_place_of(&path, 8), numbered(&path, 2));
        fs::remove_file(&path).unwrap();
    }
}
