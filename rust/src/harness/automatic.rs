//! The recorder that each test gets by itself under `cargo yovanelum`, if it creates none: named by
//! the test's path, created at its first channel or task, and reported only where the test fails.
//!
//! The package that stands for tokio begins it, and says when the thread of the test blocks on a
//! future. A panic that leaves that future ends the test, as it ends a recorder that is the first
//! variable of the future, and so does an `Err` that it returns. A test that blocks on none ends at
//! its panic, after the hook of the harness has printed that. It may be caught: then the test goes
//! on, and its last panic counts. Any other `Err` is reported when the thread ends: if the harness
//! was seen to write a channel's error, or if the process runs this test alone and fails.

mod at_exit;
mod passed;
mod returned;
mod tests_of_program;

pub(super) use passed::PASSED;

use super::exploring::RUNS;
use super::for_test::SaveOnPanic;
use super::test_run::{self, TestRun};
use crate::channels::actors::{self, current_task};
use crate::channels::recorder::{
    ForTests, REPLAY, Recorder, TestOfThread, give_to_tests, test_of_this_thread,
};
use crate::channels::turns::explored;
use crate::harness::program::Program;
use crate::schedule::explore::is_run_asked_for;
use std::any::Any;
use std::cell::Cell;
use std::panic::Location;
use std::sync::OnceLock;
use std::time::{Duration, SystemTime};
use std::{env, fs, thread};
use yovanelum_record::listed::IntoList;

/// The variable that the command sets for the tests that it runs.
const COMMAND: &str = "YOVANELUM_COMMAND";

/// The variable by which the command says after how many seconds a test that hasn't ended is
/// reported. Without it, that is as many as after which the test harness says so too.
const REPORT_AFTER: &str = "YOVANELUM_REPORT_AFTER";

/// The variable by which the command names the tests that are to have a recorder, if not all.
const ONLY_TESTS: &str = "YOVANELUM_ONLY";

/// The variable by which the command has reports show no lines of the sources.
const SHORT: &str = "YOVANELUM_SHORT";

/// After how many seconds the test harness says that a test hasn't ended.
const SECONDS: u64 = 60;

thread_local! {
    // On how many futures this thread blocks, one within the other.
    static BLOCKED_ON: Cell<usize> = const { Cell::new(0) };
}

/// Whether `cargo yovanelum` runs this program.
pub(super) fn is_under_command() -> bool {
    static IS_UNDER: OnceLock<bool> = OnceLock::new();
    *IS_UNDER.get_or_init(|| env::var_os(COMMAND).is_some())
}

/// What gives the tests of this program their recorders.
struct OfCommand;

impl ForTests for OfCommand {
    fn is_test(&self, thread: &str) -> bool {
        Program::this().target.is_test && is_chosen(thread) && tests_of_program::may_report(thread)
    }

    fn test_at(&self, at: &Location<'_>) -> Option<(&'static str, Option<&'static str>)> {
        if !Program::this().target.is_test {
            return None;
        }
        let only = || only_test().map(|path| (path, Some(path)));
        tests_of_program::test_at(at.file(), at.line()).or_else(only)
    }

    fn begin(&self, test: &str, is_end_seen: bool) -> Option<(Recorder, Box<dyn Any + Send>)> {
        let recorder = Recorder::of_test(test);
        recorder.0.show_known();
        let mut saved = recorder.save_for(test, test.to_string());
        if is_end_seen {
            saved = saved.watchdog(report_after());
        }
        saved.test.note_automatic();
        Some((recorder, Box::new(at_exit::KeptTest::new(saved))))
    }

    fn error_is_written(&self, kept: &mut dyn Any, text: String) {
        returned::note_written(kept, text);
    }
}

/// Returns what is kept of a test, which this crate has given.
fn saved_of(kept: &dyn Any) -> Option<&SaveOnPanic> {
    kept.downcast_ref::<at_exit::KeptTest>()?.saved()
}

/// Whether the test with this path is to have a recorder: all are, unless the command names some.
fn is_chosen(path: &str) -> bool {
    static ONLY: OnceLock<Option<String>> = OnceLock::new();
    let only = ONLY.get_or_init(|| env::var(ONLY_TESTS).ok());
    let is_it = |name: &str| {
        let before = path.strip_suffix(name);
        before.is_some_and(|before| before.is_empty() || before.ends_with("::"))
    };
    only.as_deref()
        .is_none_or(|names| names.split(',').any(is_it))
}

/// Returns the only test that this process runs, if its arguments name one.
fn only_test() -> Option<&'static str> {
    static ONLY: OnceLock<Option<String>> = OnceLock::new();
    let only = ONLY.get_or_init(|| {
        let arguments: Vec<_> = env::args().skip(1).listed();
        let mut names = arguments.iter().filter(|word| !word.starts_with('-'));
        let (first, second) = (names.next(), names.next());
        let is_exact = arguments.iter().any(|word| word == "--exact");
        first.filter(|_| is_exact && second.is_none()).cloned()
    });
    only.as_deref()
}

fn is_set(variable: &str) -> bool {
    env::var_os(variable).is_some()
}

fn report_after() -> Duration {
    let given = env::var(REPORT_AFTER).ok();
    let seconds = given.and_then(|seconds| seconds.parse().ok());
    Duration::from_secs(seconds.unwrap_or(SECONDS))
}

/// Has tests get recorders by themselves, if `cargo yovanelum` runs this program.
///
/// No part of what this crate promises: it is for the package that stands for tokio, which calls it
/// where a runtime is built or a channel created.
#[doc(hidden)]
#[inline]
pub fn record_tests() {
    if is_under_command() {
        begin();
    }
}

#[cold]
fn begin() {
    give_to_tests(&OfCommand);
    let test = test_of_this_thread();
    // The order of a replay, and the one that is explored, begin with the first task.
    let is_ordered = || is_set(REPLAY) || is_set(RUNS) || is_run_asked_for();
    if let Some(test) = test.filter(|_| explored().is_some() || is_ordered()) {
        test.begin();
    }
}

/// While this is alive, the thread blocks on a future. It is the first variable of that future, so
/// where a panic leaves the future, all others are dropped before.
///
/// No part of what this crate promises: it is for the package that stands for tokio.
#[doc(hidden)]
#[derive(Debug)]
pub struct BlockedOn {
    has_failed: bool,
}

impl BlockedOn {
    /// Notes that this thread blocks on a future.
    #[allow(clippy::new_without_default)]
    pub fn new() -> BlockedOn {
        let _ = BLOCKED_ON.try_with(|count| count.set(count.get() + 1));
        BlockedOn { has_failed: false }
    }

    /// Notes what the future returns, on which the thread blocks here in the sources.
    pub fn returns<T>(&mut self, output: &T, at: &'static Location<'static>) {
        self.has_failed = returned::note(output, at);
    }
}

impl Drop for BlockedOn {
    fn drop(&mut self) {
        let left = BLOCKED_ON.try_with(|count| {
            count.set(count.get() - 1);
            count.get()
        });
        if left == Ok(0) && (self.has_failed || thread::panicking()) {
            let other = test_of_this_thread().and_then(|test| line_on_other(&test));
            end_of_this_thread();
            if let Some(line) = other {
                eprint!("{line}");
            }
        }
    }
}

/// Ends the test of this thread, which panics. The drop of what is kept reports it.
#[cold]
fn end_of_this_thread() {
    if let Some(test) = test_of_this_thread() {
        test.thread().end();
    }
}

/// Returns a line on the channel that this thread, which runs a test, has used last, if another
/// test has created it. Its calls are in the recorder of that.
fn line_on_other(test: &TestOfThread) -> Option<String> {
    let name = test.thread().name();
    let other = test_run::name_of(actors::last_recorder()?)?;
    (other != name && !test.thread().is_over()).then(|| {
        format!(
            "yovanelum: the channel that {name} used last is recorded for {other}, which created it: a static is created once in a process. Alone, `cargo yovanelum test -- {name} --exact` records it\n"
        )
    })
}

/// Ends the recorder that a test has by itself without a word, since it creates its own.
pub(super) fn leave_to_test() {
    if is_under_command() {
        end_of_this_thread();
    }
}

/// Has this thread, which panics, follow what other threads of its test have begun.
pub(super) fn see_this_thread() {
    if is_under_command() {
        let _ = test_of_this_thread();
    }
}

/// Reports the test of this thread, whose panic was printed, unless the thread blocks on a future.
/// It is called by the panic hook, and what it prints is captured with what the test prints.
pub(super) fn report_in_hook() {
    let is_in_future = BLOCKED_ON.try_with(Cell::get).is_ok_and(|count| count > 0);
    if !is_under_command() || is_in_future || current_task().is_some() {
        return;
    }
    if let Some(test) = test_of_this_thread() {
        let (lines, other) = (lines_on(&test), line_on_other(&test));
        for text in &[lines, other] {
            eprint!("{}", text.as_deref().unwrap_or_default());
        }
    }
}

/// Writes the files of a test, and returns its report. This thread may have locked what is asked
/// for.
fn lines_on(test: &TestOfThread) -> Option<String> {
    test.thread().with_kept(|kept| {
        let saved = saved_of(kept)?;
        // Another thread may have panicked before, which this one has joined.
        saved.test.note_unwinding();
        let lines = saved.test.write_before_process_ends()?;
        saved.test.note_report();
        Some(lines)
    })?
}

/// Returns before which time sources were written whose lines a report shows: that of the program.
/// They are shown under the command, unless it is told otherwise.
pub(super) fn sources_before() -> Option<SystemTime> {
    let is_shown = is_under_command() && env::var_os(SHORT).is_none();
    let program = is_shown.then(|| fs::metadata(&Program::this().path));
    program?.and_then(|program| program.modified()).ok()
}

/// Returns the line that brings this test back under the command.
pub(super) fn replay_line(test: &TestRun, quoted: impl Fn(&str) -> String) -> Option<String> {
    is_under_command().then(|| format!("replay: cargo yovanelum replay {}\n", quoted(&test.name)))
}
