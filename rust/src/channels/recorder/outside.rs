//! Channels that are created in this process, and those that belong to no recorder.

use crate::channels::atomic::AtomicU64;
use crate::channels::channel::CallSite;
use crate::channels::lock::lock;
use crate::channels::standard_error::say;
use std::env;
use std::sync::atomic::{AtomicBool, AtomicUsize, Ordering};
use std::sync::{Mutex, OnceLock};
use std::thread;

/// The variable that names the journal which a test replays.
pub(crate) const REPLAY: &str = "YOVANELUM_REPLAY";

/// Whether a channel of this crate was created in this process.
static IS_SWAPPED: AtomicBool = AtomicBool::new(false);

/// How many channels are noted that belong to no recorder.
const MOST_OF_NONE: usize = 64;

/// The first channels that belong to no recorder, and how many there are.
static OF_NONE: Mutex<Vec<OfNone>> = Mutex::new(Vec::new());
static COUNT_OF_NONE: AtomicUsize = AtomicUsize::new(0);

/// A channel that belongs to no recorder.
#[derive(Clone, Debug)]
pub(crate) struct OfNone {
    /// Where it was created.
    pub(crate) made_at: CallSite,
    /// The name of the thread that created it.
    pub(crate) thread: Option<String>,
    /// When, among the starts of tests.
    pub(crate) moment: u64,
    /// Whether one test alone had a recorder then.
    pub(crate) is_of_one: bool,
}

/// How many tests have a recorder.
static TESTS: AtomicUsize = AtomicUsize::new(0);

/// While this is alive, a test has a recorder.
#[derive(Debug)]
pub(crate) struct TestCount(());

impl TestCount {
    pub(crate) fn begin() -> TestCount {
        TESTS.fetch_add(1, Ordering::SeqCst);
        TestCount(())
    }
}

impl Drop for TestCount {
    fn drop(&mut self) {
        TESTS.fetch_sub(1, Ordering::SeqCst);
    }
}

/// Counts moments, which say what came before what.
pub(crate) fn next_moment() -> u64 {
    static NEXT: AtomicU64 = AtomicU64::new(1);
    NEXT.fetch_add(1, Ordering::SeqCst)
}

/// Notes that a channel is created here in the source.
pub(crate) fn note_channel(made_at: CallSite, has_recorder: bool) {
    // Most channels find it set, and a store would take the cache line from other processors.
    if !IS_SWAPPED.load(Ordering::Relaxed) {
        IS_SWAPPED.store(true, Ordering::Relaxed);
    }
    if !has_recorder && COUNT_OF_NONE.load(Ordering::Relaxed) < MOST_OF_NONE {
        note_of_none(made_at);
    }
}

#[cold]
fn note_of_none(made_at: CallSite) {
    COUNT_OF_NONE.fetch_add(1, Ordering::Relaxed);
    lock(&OF_NONE).push(OfNone {
        made_at,
        thread: thread::current().name().map(String::from),
        moment: next_moment(),
        is_of_one: TESTS.load(Ordering::SeqCst) == 1,
    });
}

/// Whether a channel was created that belongs to no recorder.
pub(crate) fn is_any_of_none() -> bool {
    COUNT_OF_NONE.load(Ordering::Relaxed) > 0
}

/// Returns the first channels that belong to no recorder, in the order in which they were created.
pub(crate) fn of_none() -> Vec<OfNone> {
    lock(&OF_NONE).clone()
}

/// Whether a channel of this crate was created in this process.
pub(crate) fn is_any_made() -> bool {
    IS_SWAPPED.load(Ordering::Relaxed)
}

/// Whether the variable names a journal. It is looked for once.
fn is_replay_wanted() -> bool {
    static IS_WANTED: OnceLock<bool> = OnceLock::new();
    *IS_WANTED.get_or_init(|| env::var_os(REPLAY).is_some())
}

/// Says that a channel that is created here in the source isn't replayed, if the variable names a
/// journal. The crate may be part of a program in which no recorder follows it.
pub(crate) fn say_that_none_replays(made_at: CallSite) {
    static IS_SAID: AtomicBool = AtomicBool::new(false);
    if IS_SAID.load(Ordering::Relaxed) || !is_replay_wanted() {
        return;
    }
    if !IS_SAID.swap(true, Ordering::Relaxed) {
        let at = made_at.map_or_else(String::new, |at| format!(" at {}:{}", at.file(), at.line()));
        say(&format!(
            "{REPLAY} is set, and no recorder follows it for the channel that is created{at}: its calls are in no order"
        ));
    }
}
