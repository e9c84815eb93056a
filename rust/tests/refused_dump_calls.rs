//! Dumps of a flight recorder, of which each call of the system that makes a thread, a folder or a
//! file is refused in turn, alone and with all that follow. The calls of the service go on, and
//! nothing is lost but the dump. It is a program of its own, since it has these calls in place of
//! the C library.

// Elsewhere Rust's library calls the system by other names.
#![cfg(all(target_os = "linux", target_env = "gnu"))]

#[path = "support/dumped_service.rs"]
mod dumped_service;
#[path = "support/refusing_system.rs"]
mod refusing_system;
mod support;

use dumped_service::Service;
use refusing_system::{Refusal, Seen, refusing};
use std::collections::BTreeSet;
use std::fs;
use std::io;
use std::path::{Path, PathBuf};
use support::parts::{Folder, is_part, play};
use support::temporary::files_in;
use yovanelum::Recorder;

/// The number of the error ENOSPC.
const NO_SPACE: i32 = 28;

/// The numbers of the errors EAGAIN and EACCES, and that one.
const ERRORS: [i32; 3] = [11, 13, NO_SPACE];

/// A dump while calls are refused.
struct Try<'a> {
    folder: &'a Path,
    // Whether an older dump is in the folder. If none is, the folder isn't there.
    has_older: bool,
    refusal: Refusal,
}

impl Try<'_> {
    /// Writes the dump, and then one while nothing is refused. Returns the first call that was
    /// refused, if one was.
    fn play(&self) -> Option<&'static str> {
        let _ = fs::remove_dir_all(self.folder);
        let recorder = Recorder::flight(20);
        recorder.dump_to(self.folder).keep(1);
        let _entered = recorder.enter();
        let mut service = Service::begin(&recorder);
        (0..20).for_each(|_| service.step());
        if self.has_older {
            recorder.dump("an older one").wait().unwrap();
        }
        let (older, before) = (files_in(self.folder), recorder.dumps());
        let (ended, seen) = refusing(self.refusal, || {
            let dump = recorder.dump("a try");
            (0..20).for_each(|_| service.step());
            dump.wait()
        });
        let dumps = recorder.dumps();
        let more = (dumps.written() - before.written(), dumps.failed());
        if self.fails(&seen) {
            assert_eq!(more, (0, 1), "{:?}", seen.refused);
            self.assert_nothing_is_written(&ended.unwrap_err(), &seen, &older);
        } else {
            assert_eq!(more, (1, 0), "{:?}", seen.refused);
            assert_is_written(&ended.unwrap(), &seen);
        }
        service.step();
        let next = recorder.dump("the next one").wait().unwrap();
        service.assert_is_last_of(&next);
        // What the dump before has left is gone.
        assert_eq!(
            files_in(self.folder),
            [next.clone(), names_of(&next)].map(name)
        );
        seen.refused.first().copied()
    }

    /// Whether the dump needs a call that was refused: all that make a thread, a folder or a file.
    /// It goes on without the sources, and where older dumps can't be removed.
    fn fails(&self, seen: &Seen) -> bool {
        let is_needed = |call: &&str| *call != "open to read" && !is_to_remove(call);
        seen.refused.iter().any(is_needed)
    }

    /// Asserts that the failure is said, and that no file is there that has the name of a dump and
    /// isn't whole.
    fn assert_nothing_is_written(&self, error: &io::Error, seen: &Seen, older: &[String]) {
        assert_eq!(
            seen.said,
            format!("yovanelum: a dump isn't written: {error}\n")
        );
        let number = format!("(os error {})", self.refusal.error);
        assert!(error.to_string().ends_with(&number), "{error}");
        let files = files_in(self.folder);
        if !self.refusal.all {
            assert_eq!(files, older);
        }
        // Where nothing can be removed either, parts may stay, and names that are whole.
        let more = files.iter().filter(|file| !older.contains(file));
        for file in more.filter(|file| !file.ends_with(".part")) {
            let text = fs::read_to_string(self.folder.join(file)).unwrap();
            assert!(
                file.ends_with(".names") && text.ends_with("\n}\n"),
                "{file}"
            );
        }
    }
}

/// Asserts that a dump is whole, and that its path is said, and where older ones weren't removed.
fn assert_is_written(journal: &Path, seen: &Seen) {
    assert!(fs::read_to_string(journal).unwrap().ends_with("\nend\n"));
    assert!(
        fs::read_to_string(names_of(journal))
            .unwrap()
            .ends_with("\n}\n")
    );
    let kept = seen.refused.iter().filter(|call| is_to_remove(call));
    let is_path = |line: &&str| line.starts_with("yovanelum: a dump is written: ");
    let (paths, others): (Vec<_>, Vec<_>) = seen.said.lines().partition(is_path);
    assert_eq!(paths.len(), 1, "{}", seen.said);
    assert_eq!(others.len(), kept.count(), "{}", seen.said);
    for line in others {
        assert!(
            line.starts_with("yovanelum: ") && line.contains(" removed: "),
            "{line}"
        );
    }
}

/// Whether a dump removes older ones by this call.
fn is_to_remove(call: &str) -> bool {
    matches!(call, "opendir" | "unlink")
}

fn names_of(journal: &Path) -> PathBuf {
    journal.with_extension("names")
}

fn name(path: PathBuf) -> String {
    path.file_name().unwrap().to_str().unwrap().to_string()
}

/// Refuses each call of a dump in turn. Returns those that were refused, and at how many of them
/// the disk was full from then on.
fn refuse_each(folder: &Path) -> (BTreeSet<&'static str>, usize) {
    let (mut refused, mut full) = (BTreeSet::new(), 0);
    for error in ERRORS {
        for (all, has_older) in [(false, false), (false, true), (true, false), (true, true)] {
            let tries = (0..).map(|allowed| Try {
                folder,
                has_older,
                refusal: Refusal {
                    allowed,
                    all,
                    error,
                },
            });
            let calls: Vec<_> = tries.map_while(|one| one.play()).collect();
            if all && error == NO_SPACE {
                full += calls.len();
            }
            refused.extend(calls);
        }
    }
    (refused, full)
}

#[test]
fn each_call_of_the_system_is_refused_and_the_service_goes_on() {
    // What the part writes to standard error isn't captured.
    if is_part() {
        let (refused, full) = refuse_each(Path::new("dumps"));
        assert!(full >= 20, "the disk is full at {full} moments");
        let wanted = [
            "mkdir",
            "open",
            "open to read",
            "opendir",
            "pthread_create",
            "rename",
            "unlink",
            "write",
        ];
        return assert!(refused.into_iter().eq(wanted));
    }
    let folder = Folder::new("refused-system");
    let test = "each_call_of_the_system_is_refused_and_the_service_goes_on";
    let (succeeds, said) = play(test, &folder.0, None);
    assert!(succeeds, "{said}");
}
