//! A test whose recorder is alive, and what is noted of its end: the panics of its threads and
//! tasks, and the `Err` that it returns.

use super::files;
use super::seen_panic::SeenPanic;
use super::stacks;
use crate::channels::actors;
use crate::channels::atomic::AtomicU64;
use crate::channels::cut::start_of;
use crate::channels::lock::{lock, try_lock_for};
use crate::channels::recorder::{
    MOST_BYTES, NotedPanic, PATIENCE, Shared, TestCount, WaitThen, is_entered, next_moment,
};
use crate::harness::program::{Program, is_patched};
use std::backtrace::Backtrace;
use std::fmt;
use std::panic::{Location, PanicHookInfo};
use std::sync::atomic::{AtomicBool, Ordering};
use std::sync::{Arc, Mutex, Weak};
use std::thread;
use yovanelum_record::by_text::TextMap;
use yovanelum_record::listed::{IntoList, Keep};
use yovanelum_record::numbered::NumberMap;
use yovanelum_record::sidecar::{Returned, Sidecar, SourceLocation, TestId};

/// How many panics of a test are noted. Of more, the last one replaces the last.
const MOST_PANICS: usize = 16;

/// The tests whose guards are alive.
static ALIVE: Mutex<Vec<Weak<TestRun>>> = Mutex::new(Vec::new());

/// A test whose guard is alive.
#[derive(Debug)]
pub(super) struct TestRun {
    // A recorder that is held would hold its channels open.
    pub(super) recorder: Weak<Shared>,
    pub(super) recorder_id: u64,
    pub(super) name: String,
    pub(super) thread: String,
    // How many tests this thread has begun under this name before.
    nth: u64,
    /// When it began, among the channels that belong to no recorder.
    pub(super) moment: u64,
    /// Where its recorder was created, or is watched.
    pub(super) made_at: &'static Location<'static>,
    // The number of the test in this process.
    pub(super) number: u64,
    noted: Mutex<Noted>,
    // Whether the test has its recorder by itself.
    is_automatic: AtomicBool,
    // Whether it was reported at its panic, and not where that unwinds a guard.
    is_reported: AtomicBool,
    _count: TestCount,
}

/// An error that the test returns.
#[derive(Debug)]
struct NotedError {
    text: String,
    location: Option<SourceLocation>,
    since: u64,
}

/// An error of a channel whose text was written on the thread of the test, with who wrote it.
#[derive(Debug)]
struct WrittenError {
    text: String,
    since: u64,
    stack: Backtrace,
}

#[derive(Debug, Default)]
struct Noted {
    panics: Vec<SeenPanic>,
    // The index of the panic that unwinds the recorder.
    ended_by: Option<usize>,
    returned: Option<NotedError>,
    // The last one.
    written: Option<WrittenError>,
}

/// How many tests each thread has begun, by the names of the thread and of the test.
static BEGUN: Mutex<TextMap<u64>> = Mutex::new(TextMap::new());

/// How many tests are known by the numbers of their recorders.
const MOST_NAMES: usize = 1000;

/// The names of the last tests, by the numbers of their recorders.
static NAMES: Mutex<NumberMap<u64, String>> = Mutex::new(NumberMap::new());

fn note_name(recorder: u64, name: &str) {
    let mut names = lock(&NAMES);
    names.insert(recorder, name.to_string());
    if names.len() > MOST_NAMES {
        names.remove_first();
    }
}

/// Returns the name of the test whose recorder has this number, if it is one of the last.
pub(super) fn name_of(recorder: u64) -> Option<String> {
    lock(&NAMES).get(&recorder).cloned()
}

pub(super) fn name_of_thread() -> String {
    thread::current().name().unwrap_or_default().to_string()
}

/// How many tests with this name this thread has begun.
pub(super) fn begun(name: &str) -> u64 {
    lock(&BEGUN).get(&on_thread(name)).copied().unwrap_or(0)
}

/// Returns the names of this thread and of a test as one. No thread's has the character between.
fn on_thread(name: &str) -> String {
    format!("{}\0{name}", name_of_thread())
}

/// Notes that this thread begins a test with this name, and returns how many it had begun before.
fn begin_next(name: &str) -> u64 {
    let mut begun = lock(&BEGUN);
    let count = begun.get_or_default(&on_thread(name));
    *count += 1;
    *count - 1
}

impl TestRun {
    /// Begins to note what happens to the test of this name, which runs on the thread with the
    /// other name.
    #[track_caller]
    pub(super) fn start(recorder: &Arc<Shared>, name: &str, thread: String) -> Arc<TestRun> {
        files::begin();
        static NEXT: AtomicU64 = AtomicU64::new(1);
        let run = Arc::new(TestRun {
            recorder: Arc::downgrade(recorder),
            recorder_id: recorder.id,
            name: name.to_string(),
            thread,
            nth: begin_next(name),
            moment: next_moment(),
            made_at: Location::caller(),
            number: NEXT.fetch_add(1, Ordering::Relaxed),
            noted: Mutex::default(),
            is_automatic: AtomicBool::new(false),
            is_reported: AtomicBool::new(false),
            _count: TestCount::begin(),
        });
        actors::forget_last_recorder();
        note_name(recorder.id, name);
        let mut alive = lock(&ALIVE);
        alive.keep(|run| run.strong_count() > 0);
        alive.push(Arc::downgrade(&run));
        run
    }

    /// Returns the tests that this thread or its task belongs to: their recorder is entered here,
    /// or the last recorded call here was one of it.
    pub(super) fn of_this_thread() -> Vec<Arc<TestRun>> {
        let alive = try_lock_for(&ALIVE, PATIENCE);
        let alive: Vec<_> = alive.map_or_else(Vec::new, |alive| alive.clone());
        let runs = alive.iter().filter_map(Weak::upgrade);
        runs.filter(|run| is_entered(run.recorder_id) || actors::has_called(run.recorder_id))
            .listed()
    }

    /// Notes a panic of this thread.
    pub(super) fn note_panic(&self, info: &PanicHookInfo<'_>) {
        let Some(recorder) = self.recorder.upgrade() else {
            return;
        };
        let noted = try_lock_for(&self.noted, PATIENCE);
        let is_first =
            noted.is_none_or(|noted| !noted.panics.iter().any(SeenPanic::is_of_this_thread));
        let panic = SeenPanic::of(info, &recorder, is_first);
        if let Some(mut noted) = try_lock_for(&self.noted, PATIENCE) {
            noted.panics.truncate(MOST_PANICS - 1);
            noted.panics.push(panic);
        }
    }

    /// Notes that the last panic of this thread ends the test, but for those that a drop has
    /// caught. A task that panics on a thread is caught by its runtime, and so it is no panic of
    /// that thread.
    pub(super) fn note_unwinding(&self) {
        let Some(mut noted) = try_lock_for(&self.noted, PATIENCE) else {
            return;
        };
        let may_unwind = |it: &SeenPanic| it.is_of_this_thread() && !it.is_caught_in_drop();
        let last = noted.panics.iter().rposition(may_unwind);
        noted.ended_by = last.or_else(|| {
            let mut panics = noted.panics.iter();
            panics.rposition(SeenPanic::is_of_this_thread)
        });
    }

    /// Returns the calls that waited when the panic began by which the test ended.
    pub(super) fn waits_at_failure(&self) -> Vec<WaitThen> {
        let Some(noted) = try_lock_for(&self.noted, PATIENCE) else {
            return vec![];
        };
        let ended_by = noted.ended_by.and_then(|index| noted.panics.get(index));
        ended_by.map_or_else(Vec::new, |panic| panic.waits.clone())
    }

    /// Notes that the test returns an `Err`.
    pub(super) fn note_error(&self, error: &dyn fmt::Debug, location: &Location<'_>) {
        if let Some(recorder) = self.recorder.upgrade() {
            let since = recorder.last();
            let text = start_of(&format!("{error:?}"), MOST_BYTES).to_string();
            lock(&self.noted).returned = Some(NotedError {
                text,
                location: Some(location.into()),
                since,
            });
        }
    }

    /// Notes the text of a channel's error, which is written on the thread of the test. This thread
    /// may be at anything then, and so nothing is waited for.
    pub(super) fn note_written(&self, text: String, stack: Backtrace) {
        let since = self.recorder.upgrade().map(|recorder| recorder.last());
        if let (Some(since), Ok(mut noted)) = (since, self.noted.try_lock()) {
            noted.written = Some(WrittenError { text, since, stack });
        }
    }

    /// Takes the error whose text was written last for what the test has returned, if the harness
    /// wrote it.
    pub(super) fn take_written(&self) {
        let written = lock(&self.noted).written.take();
        let of_harness = written.filter(|it| stacks::is_of_returned(&it.stack));
        if let Some(WrittenError { text, since, .. }) = of_harness {
            lock(&self.noted).returned = Some(NotedError {
                text,
                location: None,
                since,
            });
        }
    }

    /// Records that the test has returned an `Err`, whose text and location aren't known.
    pub(super) fn note_unknown_error(&self) {
        let since = self
            .recorder
            .upgrade()
            .map_or(0, |recorder| recorder.last());
        lock(&self.noted).returned = Some(NotedError {
            text: String::new(),
            location: None,
            since,
        });
    }

    /// Whether the test has failed, as far as is known before its end.
    pub(super) fn has_ended_badly(&self) -> bool {
        self.has_returned_error() || self.is_reported()
    }

    /// Notes that the test has its recorder by itself.
    pub(super) fn note_automatic(&self) {
        self.is_automatic.store(true, Ordering::Relaxed);
    }

    /// Whether the test has its recorder by itself. Then nobody asked that anything be recorded.
    pub(super) fn is_automatic(&self) -> bool {
        self.is_automatic.load(Ordering::Relaxed)
    }

    /// Notes that the test is reported at its panic.
    pub(super) fn note_report(&self) {
        self.is_reported.store(true, Ordering::Relaxed);
    }

    /// Whether the test was reported at its panic.
    pub(super) fn is_reported(&self) -> bool {
        self.is_reported.load(Ordering::Relaxed)
    }

    /// Whether the test has returned an `Err`.
    pub(super) fn has_returned_error(&self) -> bool {
        lock(&self.noted).returned.is_some()
    }

    /// Whether a panic is noted.
    pub(super) fn has_panicked(&self) -> bool {
        try_lock_for(&self.noted, PATIENCE).is_some_and(|noted| !noted.panics.is_empty())
    }

    /// Returns the panics that are noted, up to the one that ended the test if that is known. Those
    /// after it are of the unwinding.
    pub(super) fn panics(&self) -> Vec<NotedPanic> {
        let noted = lock(&self.noted);
        let count = noted.ended_by.map_or(usize::MAX, |index| index + 1);
        let panics = noted.panics.iter().take(count);
        panics.map(|it| it.panic.clone()).listed()
    }

    /// Returns which test it is.
    pub(super) fn id(&self) -> TestId {
        let program = Program::this();
        TestId {
            package: program.package.clone().unwrap_or_default(),
            target: program.target.name.clone(),
            name: self.name.clone(),
            thread: self.thread.clone(),
            nth: self.nth,
            patched: is_patched(),
        }
    }

    /// Adds to the names which test it is, and how it ends.
    pub(super) fn add_to(&self, names: &mut Sidecar) {
        names.ending.test = Some(self.id());
        let Some(noted) = try_lock_for(&self.noted, PATIENCE) else {
            return;
        };
        for seen in &noted.panics {
            seen.panic.add_to(names);
        }
        names.ending.ended_by = noted.ended_by;
        if let Some(error) = &noted.returned {
            names.ending.returned = Some(Returned {
                text: error.text.clone(),
                location: error.location.as_ref().map(|at| names.index_of(at)),
                since: error.since,
            });
        }
    }
}
