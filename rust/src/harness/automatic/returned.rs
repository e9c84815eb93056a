//! A test that returns an `Err`: what the thread of a test blocks on returns it, where the
//! attribute of the test has made the function a future; or the harness writes it, which is seen
//! where a channel's error is in it.

use super::at_exit::KeptTest;
use super::{BLOCKED_ON, is_under_command, saved_of, tests_of_program};
use crate::channels::actors::current_task;
use crate::channels::erased;
use crate::channels::recorder::{TestOfThread, test_of_this_thread};
use crate::harness::for_test::SaveOnPanic;
use std::any::Any;
use std::backtrace::Backtrace;
use std::cell::Cell;
use std::fmt;
use std::panic::Location;

/// An error, of which there is the text.
struct ErrorText(String);

impl fmt::Debug for ErrorText {
    fn fmt(&self, f: &mut fmt::Formatter<'_>) -> fmt::Result {
        f.write_str(&self.0)
    }
}

/// Notes what the test of this thread returns, if what it blocks on is the whole test. Returns
/// whether that is an `Err`.
pub(super) fn note<T>(output: &T, at: &'static Location<'static>) -> bool {
    if !is_under_command() || BLOCKED_ON.try_with(Cell::get) != Ok(1) {
        return false;
    }
    let is_whole = |test: &TestOfThread| tests_of_program::is_async(test.thread().name());
    let Some(test) = test_of_this_thread().filter(is_whole) else {
        return false;
    };
    // Its text may be written by code of the test's, so nothing is locked here.
    let error = erased::error_in(output);
    let noted = test.thread().with_kept(|kept| {
        let kept = kept.downcast_mut::<KeptTest>()?;
        kept.is_return_seen = true;
        kept.saved()?.test.note_error(&ErrorText(error?), at);
        Some(())
    });
    noted.flatten().is_some()
}

/// Notes the text of a channel's error that somebody writes on the thread of this test, with who
/// does. Neither a task nor what the thread blocks on is the harness.
pub(super) fn note_written(kept: &mut dyn Any, text: String) {
    let is_in_future = BLOCKED_ON.try_with(Cell::get) != Ok(0);
    if is_in_future || current_task().is_some() {
        return;
    }
    let may_return = |saved: &&SaveOnPanic| tests_of_program::returns(&saved.test.name);
    if let Some(saved) = saved_of(kept).filter(may_return) {
        saved.test.note_written(text, Backtrace::force_capture());
    }
}
