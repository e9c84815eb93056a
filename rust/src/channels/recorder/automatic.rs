//! Tests that create no recorder, where each of them gets one by itself: the harness says which
//! threads run a test, and creates the recorder at the first channel or task of the test.

use super::Recorder;
use super::current::{Stack, expect_any, of_this_thread, replace_of_this_thread};
use crate::channels::channel::CallSite;
use crate::channels::lock::lock;
use crate::channels::reentrant::thread_number;
use std::any::Any;
use std::mem;
use std::panic::Location;
use std::sync::{Arc, Mutex, OnceLock, Weak};
use std::thread;
use yovanelum_record::by_text::TextMap;
use yovanelum_record::listed::Keep;

/// What is kept until a test ends.
type KeptRecorder = Box<dyn Any + Send>;

/// What gives tests their recorders.
pub(crate) trait ForTests: Send + Sync {
    /// Whether a thread with this name runs a test that is to have a recorder.
    fn is_test(&self, thread: &str) -> bool;

    /// Returns the test in whose function a place in the sources is, or the only one that this
    /// process runs: its name, and its path if that is known.
    fn test_at(&self, at: &Location<'_>) -> Option<(&'static str, Option<&'static str>)>;

    /// Creates the recorder of the test with this name, and what is kept until it ends. `None` if
    /// it is to have none. Where its end may not be seen, it isn't watched.
    fn begin(&self, test: &str, is_end_seen: bool) -> Option<(Recorder, KeptRecorder)>;

    /// Learns that the text of a channel's error is written on the thread of a test, of which this
    /// is kept.
    fn error_is_written(&self, kept: &mut dyn Any, text: String);
}

static FOR_TESTS: OnceLock<&'static dyn ForTests> = OnceLock::new();

/// Lets tests that create no recorder get one from this.
pub(crate) fn give_to_tests(for_tests: &'static dyn ForTests) {
    FOR_TESTS.get_or_init(|| for_tests);
}

/// The threads that run tests, as far as they are known.
static RUNNING: Mutex<Vec<Weak<Stack>>> = Mutex::new(Vec::new());

/// Tests whose own thread isn't known yet, though another thread of theirs has created a channel:
/// what their threads have, by the path of the test.
static EXPECTED: Mutex<TextMap<Arc<Stack>>> = Mutex::new(TextMap::new());

/// A thread that runs a test.
pub(crate) struct TestThread {
    name: String,
    // The number of the thread, once it is known.
    home: OnceLock<usize>,
    state: Mutex<AutomaticState>,
}

/// How far a test is.
enum AutomaticState {
    /// It has created no channel and spawned no task.
    Before,
    Begun(KeptRecorder),
    /// It has ended, or it has created a recorder of its own.
    Over,
}

impl TestThread {
    fn new(name: &str) -> TestThread {
        TestThread {
            name: name.to_string(),
            home: OnceLock::new(),
            state: Mutex::new(AutomaticState::Before),
        }
    }

    /// Returns the path of the test.
    pub(crate) fn name(&self) -> &str {
        &self.name
    }

    /// Whether the test has this name or, if it is the end of a path, one that ends with it.
    fn is_called(&self, name: &str) -> bool {
        let mut names = self.name.rsplit("::").take(2);
        self.name == name || names.any(|own| own == name)
    }

    /// Creates the recorder of the test and enters it on this stack, unless that was done.
    fn begin(&self, stack: &Stack, for_tests: &dyn ForTests) {
        let mut state = lock(&self.state);
        if !matches!(*state, AutomaticState::Before) {
            return;
        }
        // What it creates may ask for the recorder of this thread.
        *state = AutomaticState::Over;
        drop(state);
        let home = self.home.get();
        if let Some((recorder, kept)) = for_tests.begin(&self.name, home.is_some()) {
            home.iter().for_each(|home| recorder.0.set_home(**home));
            stack.push(&recorder);
            *lock(&self.state) = AutomaticState::Begun(kept);
        }
    }

    /// Whether the test has its recorder by itself, and hasn't ended.
    fn has_begun(&self) -> bool {
        matches!(*lock(&self.state), AutomaticState::Begun(_))
    }

    /// Whether the test has ended, or has created a recorder of its own.
    pub(crate) fn is_over(&self) -> bool {
        matches!(*lock(&self.state), AutomaticState::Over)
    }

    /// Gives what is kept of the test to this function, if it has a recorder by itself.
    pub(crate) fn with_kept<T>(&self, use_it: impl FnOnce(&mut dyn Any) -> T) -> Option<T> {
        match &mut *lock(&self.state) {
            AutomaticState::Begun(kept) => Some(use_it(&mut **kept)),
            _ => None,
        }
    }

    /// The same where this thread may be using what is kept: then the function isn't called.
    fn with_kept_unless_used(&self, use_it: impl FnOnce(&mut dyn Any)) {
        if let Ok(AutomaticState::Begun(kept)) = self.state.try_lock().as_deref_mut() {
            use_it(&mut **kept);
        }
    }

    /// Ends the test. What was kept of it is dropped.
    pub(crate) fn end(&self) {
        let state = mem::replace(&mut *lock(&self.state), AutomaticState::Over);
        // Nothing is locked here, since the drop may write the files of the test.
        drop(state);
    }
}

/// A test that runs on this thread.
pub(crate) struct TestOfThread(Arc<Stack>);

impl TestOfThread {
    /// Returns the thread of the test.
    pub(crate) fn thread(&self) -> &TestThread {
        let test = self.0.test.get();
        test.and_then(Option::as_ref).expect("a thread of a test")
    }

    /// Begins with its recorder at once, and not at its first channel.
    pub(crate) fn begin(&self) {
        if let Some(for_tests) = FOR_TESTS.get() {
            self.thread().begin(&self.0, *for_tests);
        }
    }
}

/// Returns the test that this thread runs, where tests get recorders by themselves. The tasks of a
/// test may run on other threads, which aren't its own.
pub(crate) fn test_of_this_thread() -> Option<TestOfThread> {
    let for_tests = FOR_TESTS.get()?;
    let mut stack = of_this_thread();
    if !Arc::ptr_eq(&stack, &stack.first()) {
        return None;
    }
    if stack.test.get().is_none() {
        let thread = thread::current();
        let name = thread.name().filter(|name| for_tests.is_test(name));
        stack = name.and_then(expected).unwrap_or(stack);
        let test = stack.test.get_or_init(|| name.map(TestThread::new));
        if let Some(test) = test {
            let _ = test.home.set(thread_number());
            let mut running = lock(&RUNNING);
            running.keep(|other| other.strong_count() > 0);
            running.push(Arc::downgrade(&stack));
            expect_any();
        }
    }
    let is_test = stack.test.get().is_some_and(Option::is_some);
    is_test.then_some(TestOfThread(stack))
}

/// Tells of the text of a channel's error, which somebody writes on this thread. The harness writes
/// so what a test returns. Where tests get no recorders by themselves, it does nothing.
#[inline]
pub(crate) fn error_is_written(text: impl FnOnce() -> String) {
    if let Some(for_tests) = FOR_TESTS.get() {
        tell_of_error(*for_tests, text());
    }
}

#[cold]
fn tell_of_error(for_tests: &dyn ForTests, text: String) {
    if let Some(test) = test_of_this_thread() {
        let tell = |kept: &mut dyn Any| for_tests.error_is_written(kept, text);
        test.thread().with_kept_unless_used(tell);
    }
}

/// Returns the test with this path, if other threads of it have created channels, and its own
/// thread hasn't been seen.
pub(crate) fn test_expected(path: &str) -> Option<TestOfThread> {
    let stack = lock(&EXPECTED).remove(path)?;
    Some(TestOfThread(stack))
}

/// Returns what this thread, which runs the test with this path, has, if another thread of the test
/// has created it.
fn expected(path: &str) -> Option<Arc<Stack>> {
    let stack = lock(&EXPECTED).remove(path)?;
    replace_of_this_thread(&stack).then_some(stack)
}

/// Returns what the thread has that runs the test of this place in the sources. A test that runs by
/// now is it, or else one that is expected.
fn of_test_at(for_tests: &dyn ForTests, at: &Location<'_>) -> Option<Arc<Stack>> {
    let (name, path) = for_tests.test_at(at)?;
    let running = lock(&RUNNING).clone();
    let is_it = |stack: &Arc<Stack>| {
        let test = stack.test.get().and_then(Option::as_ref);
        test.is_some_and(|test| test.is_called(path.unwrap_or(name)))
    };
    let mut found = running.iter().filter_map(Weak::upgrade).filter(is_it);
    match (found.next(), found.next()) {
        (Some(_), Some(_)) => None,
        (Some(stack), None) => Some(stack),
        (None, _) => {
            let path = path.filter(|path| for_tests.is_test(path))?;
            let mut expected = lock(&EXPECTED);
            let begin = || Arc::new(Stack::of_test(TestThread::new(path)));
            let stack = expected.get_or_insert_with(path, begin);
            Some(stack.clone())
        }
    }
}

impl Recorder {
    /// Returns the recorder that a new channel or task of this thread belongs to. A test that has
    /// none gets one here, where tests get recorders by themselves. So it does where another thread
    /// of it is the first to create a channel, at this place in the sources.
    pub(crate) fn current_or_begun(at: CallSite) -> Option<Recorder> {
        let current = Recorder::current_or_off();
        if current.is_some() {
            return current;
        }
        // The first channel of a process may be one of `Sender::new`.
        crate::begin_tests();
        let for_tests = FOR_TESTS.get()?;
        // One of the test's own threads is noted where it is followed.
        let _ = test_of_this_thread();
        let mut stack = of_this_thread().first();
        if !stack.test.get().is_some_and(Option::is_some) {
            stack = of_test_at(*for_tests, at?)?;
        }
        let test = stack.test.get()?.as_ref()?;
        test.begin(&stack, *for_tests);
        // A recorder that the test has created doesn't record other threads.
        test.has_begun().then(|| stack.last())?
    }
}
