//! What is kept of a test until its thread ends. Where the process runs this test alone, as each of
//! nextest's does, it is kept until the process ends: the status says whether the test has returned
//! an `Err`, of whatever type. Beside other tests, one line then says how to see it.

use super::{is_set, only_test, tests_of_program};
use crate::channels::lock::lock;
use crate::channels::recorder::test_expected;
use crate::channels::standard_error::say;
use crate::channels::turns::explored;
use crate::harness::exploring::RUNS;
use crate::harness::for_test::SaveOnPanic;
use std::sync::Mutex;
use std::sync::atomic::{AtomicBool, Ordering};
use std::thread;

/// What is kept of the test that this process runs.
static OF_PROCESS: Mutex<Option<SaveOnPanic>> = Mutex::new(None);

/// The last test of which nobody but the harness knows whether it has returned an `Err`.
static UNKNOWN: Mutex<Option<String>> = Mutex::new(None);

/// Whether a test of this process is known to have failed.
static IS_ANY_KNOWN: AtomicBool = AtomicBool::new(false);

/// What is kept of a test.
pub(super) struct KeptTest {
    // Until this is dropped.
    saved: Option<SaveOnPanic>,
    /// Whether what it returns has been seen.
    pub(super) is_return_seen: bool,
}

impl KeptTest {
    /// Keeps this until the thread of its test ends, or the process.
    pub(super) fn new(saved: SaveOnPanic) -> KeptTest {
        if may_end_unseen(&saved.test.name) {
            of_system::call_at_exit();
        }
        KeptTest {
            saved: Some(saved),
            is_return_seen: false,
        }
    }

    pub(super) fn saved(&self) -> Option<&SaveOnPanic> {
        self.saved.as_ref()
    }
}

impl Drop for KeptTest {
    fn drop(&mut self) {
        let Some(mut saved) = self.saved.take() else {
            return;
        };
        let is_known = |saved: &SaveOnPanic| thread::panicking() || saved.test.has_ended_badly();
        if !is_known(&saved) {
            saved.test.take_written();
        }
        if is_known(&saved) {
            IS_ANY_KNOWN.store(true, Ordering::Relaxed);
        } else if may_end_unseen(&saved.test.name) {
            if only_test() == Some(&saved.test.name) {
                // Its thread has ended.
                saved.watchdog = None;
                *lock(&OF_PROCESS) = Some(saved);
            } else if !self.is_return_seen {
                *lock(&UNKNOWN) = Some(saved.test.name.clone());
            }
        }
    }
}

/// Whether the test with this path may return an `Err` that is seen by the status of this process
/// alone. The runs of a search end with their threads.
fn may_end_unseen(path: &str) -> bool {
    of_system::IS_SEEN && explored().is_none() && !is_set(RUNS) && tests_of_program::returns(path)
}

/// Ends the test of this process, which ends with this status.
fn end(status: i32) {
    // Its own thread may have used no channel.
    let expected = only_test().and_then(test_expected);
    expected.iter().for_each(|test| test.thread().end());
    let saved = lock(&OF_PROCESS).take();
    if let Some(saved) = saved.filter(|_| status != 0) {
        saved.test.note_unknown_error();
    }
    let is_told = status == 0 || IS_ANY_KNOWN.load(Ordering::Relaxed);
    if let Some(path) = lock(&UNKNOWN).take().filter(|_| !is_told) {
        say(&format!(
            "a test has failed without a report. Where it is a `#[test]` that returns an `Err`, it has one if it runs alone, as by `cargo yovanelum test -- {path} --exact`"
        ));
    }
}

/// The end of a process, as a function learns of it.
#[cfg(all(target_os = "linux", target_env = "gnu"))]
mod of_system {
    #![allow(unsafe_code)]

    use std::ffi::{c_int, c_void};
    use std::sync::Once;
    use std::{ptr, thread};

    /// Whether a function learns of the status.
    pub(super) const IS_SEEN: bool = true;

    unsafe extern "C" {
        fn on_exit(function: extern "C" fn(c_int, *mut c_void), given: *mut c_void) -> c_int;
    }

    /// The thread that exits has no thread-locals by now, and so another one ends the test.
    extern "C" fn at_exit(status: c_int, _: *mut c_void) {
        let end: Box<dyn FnOnce() + Send> = Box::new(move || super::end(status));
        let ending = thread::Builder::new().spawn(end);
        // A panic there has printed itself.
        let _ = ending.map(thread::JoinHandle::join);
    }

    /// Has the test of this process be ended when the process exits.
    pub(super) fn call_at_exit() {
        static IS_ASKED: Once = Once::new();
        IS_ASKED.call_once(|| {
            // SAFETY: the function is part of the program, and unwinds nothing.
            let _ = unsafe { on_exit(at_exit, ptr::null_mut()) };
        });
    }
}

#[cfg(not(all(target_os = "linux", target_env = "gnu")))]
mod of_system {
    /// Only the C library of GNU gives a function the status.
    pub(super) const IS_SEEN: bool = false;

    pub(super) fn call_at_exit() {}
}
