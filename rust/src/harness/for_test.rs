//! The recorder of a test, which says what happened if the test fails.

use super::automatic;
use super::exploring;
use super::nothing::likely_cause;
use super::panic_hook;
use super::test_run::{TestRun, name_of_thread};
use super::watchdog::Watchdog;
use super::whereabouts;
use crate::channels::recorder::{Entered, Recorder};
use crate::channels::turns::explored;
use crate::schedule::explore::{self, TestReport, WaitingTask};
use std::fmt;
use std::ops::Deref;
use std::panic::{AssertUnwindSafe, Location};
use std::sync::Arc;
use std::{env, panic, thread};

impl Recorder {
    /// Creates a recorder for a test, and enters it on this thread until the result is dropped.
    ///
    /// If the thread panics while the result is alive, or the environment variable `YOVANELUM_KEEP`
    /// is set, the drop of the result prints a report on standard error: which receiver lost
    /// values, which send overwrote the first of them, whether it was told, and which calls still
    /// wait. It writes the journal to `yovanelum/PACKAGE/BUILD/NAME.journal` in the build's folder
    /// `target`, the names to `NAME.names` beside it, and the page that draws the run to
    /// `NAME.html`. `BUILD` is the build target, such as `lib` or `test-bus`. The last lines of the
    /// report are the page's address and the command that replays the run. If a file cannot be
    /// written, all three are as before, and one line says why. What can't be in the name of a file
    /// is written as `%` and hexadecimal digits.
    ///
    /// A hook for panics, which the first recorder of a process sets and which calls the previous
    /// hook, notes the text and the place of each panic of the test. If the process ends with a
    /// panic, as after a second one in a drop or with `panic = "abort"`, the hook writes the files
    /// and the report.
    ///
    /// If no channel was created under it, one line says so with the likely cause, also where the
    /// test passes, and there is no report.
    ///
    /// When a channel has made as many calls as a journal takes, 1,048,576, the last calls of each
    /// channel are kept from then on, at least 524,288, so that what ends the test is in the
    /// journal. Such a run can't be replayed.
    ///
    /// Else nothing is written or printed if the test passes, or if the result was created while
    /// its thread was panicking already. Nor is it if the process ends otherwise, as by
    /// [`process::exit`](std::process::exit).
    ///
    /// Make it the first variable of the test. It is then dropped last, and the drops of senders
    /// and receivers are in the journal.
    ///
    /// What other threads create does not belong to it. For the threads of a runtime use
    /// [`on_thread_start`](Recorder::on_thread_start), for a task [`scope`](Recorder::scope), and
    /// if no other test runs in the process [`install`](Recorder::install). A test that is itself a
    /// task, which may move from thread to thread, uses `scope` and
    /// [`save_on_panic`](Recorder::save_on_panic).
    ///
    /// A test that returns an `Err` does not panic. [`save_on_err`](ForTest::save_on_err) is given
    /// its result. If a test passes, cargo shows the report of `YOVANELUM_KEEP` only with
    /// `-- --nocapture`.
    ///
    /// # Examples
    ///
    /// ```
    /// use yovanelum::{Recorder, broadcast};
    ///
    /// let recorder = Recorder::for_test("every_price_arrives");
    /// let (prices, mut chart) = broadcast::channel(2);
    /// prices.send(101).unwrap();
    /// assert_eq!(chart.try_recv(), Ok(101));
    /// assert_eq!(recorder.len(), 2);
    /// ```
    #[must_use = "dropped at once, it records nothing"]
    #[track_caller]
    pub fn for_test(name: &str) -> ForTest {
        let recorder = Recorder::of_test(name);
        ForTest {
            saved: recorder.save_on_panic(name),
            _entered: recorder.enter(),
        }
    }

    /// Writes the journal and prints the report when the returned guard is dropped, if the thread
    /// that drops it panics or the environment variable `YOVANELUM_KEEP` is set.
    ///
    /// It is the part of [`for_test`](Recorder::for_test) that writes: the same files, and the same
    /// report on standard error. The guard enters no thread, so it may be sent.
    ///
    /// # Examples
    ///
    /// A test that is a task, and may run on several threads:
    ///
    /// ```
    /// use std::thread;
    /// use yovanelum::{Recorder, block_on, broadcast};
    ///
    /// let recorder = Recorder::new();
    /// let saved = recorder.save_on_panic("every_price_arrives");
    /// let test = recorder.scope(async move {
    ///     let _saved = saved;
    ///     let (prices, mut chart) = broadcast::channel(2);
    ///     prices.send(101).unwrap();
    ///     assert_eq!(chart.recv().await, Ok(101));
    /// });
    /// thread::spawn(move || block_on(test)).join().unwrap();
    /// assert!(!recorder.is_empty());
    /// ```
    #[must_use = "dropped at once, it sees no panic"]
    #[track_caller]
    pub fn save_on_panic(&self, name: &str) -> SaveOnPanic {
        automatic::leave_to_test();
        self.save_for(name, name_of_thread())
    }

    /// As [`save_on_panic`](Recorder::save_on_panic), for a test that runs on the thread with this
    /// name.
    #[track_caller]
    pub(super) fn save_for(&self, name: &str, thread: String) -> SaveOnPanic {
        panic_hook::install();
        self.say_if_not_replayed(name);
        exploring::begin(name);
        self.0.go_on_past_limit();
        let test = TestRun::start(&self.0, name, thread);
        self.0.begin_watching();
        let (recorder, of_run) = (Arc::downgrade(&self.0), Arc::downgrade(&test));
        let report_hung = move |waiting: &[WaitingTask]| {
            if let Some(test) = of_run.upgrade() {
                test.report_hung(waiting);
            }
        };
        let report = TestReport {
            hung: Box::new(report_hung),
            why_nothing: likely_cause,
            name_place: whereabouts::named_place,
        };
        explore::watch(recorder, report);
        SaveOnPanic {
            recorder: self.clone(),
            test,
            watchdog: None,
            began_in_panic: thread::panicking(),
        }
    }
}

/// A recorder for a test, returned by [`Recorder::for_test`].
///
/// It dereferences to the [`Recorder`], which is entered on this thread until this is dropped. If
/// the test has panicked, the drop writes the journal and prints the report. It cannot be sent to
/// another thread. [`SaveOnPanic`] can.
///
/// # Examples
///
/// ```
/// use yovanelum::{ForTest, Recorder, broadcast};
///
/// let recorder: ForTest = Recorder::for_test("every_price_arrives");
/// let (prices, mut chart) = broadcast::channel(2);
/// recorder.name(&prices, "prices");
/// prices.send(101).unwrap();
/// assert_eq!(chart.try_recv(), Ok(101));
/// assert_eq!(recorder.len(), 2);
/// ```
#[derive(Debug)]
pub struct ForTest {
    pub(super) saved: SaveOnPanic,
    _entered: Entered,
}

impl ForTest {
    /// Passes on the result of a test that returns one. If it is an `Err`, the drop of the recorder
    /// writes the journal and prints the report, as after a panic.
    ///
    /// It does not panic, so the test returns its error as before. What `?` returns earlier isn't
    /// seen, so wrap the whole body.
    ///
    /// # Examples
    ///
    /// ```
    /// use std::error::Error;
    /// use yovanelum::{Recorder, broadcast};
    ///
    /// // With `#[test]`.
    /// fn each_price_arrives() -> Result<(), Box<dyn Error>> {
    ///     let recorder = Recorder::for_test("each_price_arrives");
    ///     let chart = || {
    ///         let (prices, mut chart) = broadcast::channel(2);
    ///         prices.send(101)?;
    ///         assert_eq!(chart.try_recv()?, 101);
    ///         Ok(())
    ///     };
    ///     recorder.save_on_err(chart())
    /// }
    /// each_price_arrives().unwrap();
    /// ```
    #[track_caller]
    pub fn save_on_err<T, E: fmt::Debug>(&self, result: Result<T, E>) -> Result<T, E> {
        self.saved.save_on_err(result)
    }
}

impl Deref for ForTest {
    type Target = Recorder;

    fn deref(&self) -> &Recorder {
        &self.saved.recorder
    }
}

/// Guard returned by [`Recorder::save_on_panic`], which writes the journal and prints the report if
/// it is dropped by a thread that panics.
///
/// # Examples
///
/// A context that the steps of a test share, on whichever thread each runs:
///
/// ```
/// use yovanelum::{Recorder, SaveOnPanic, broadcast};
///
/// struct Context {
///     orders: broadcast::Sender<u32>,
///     // Dropped after the sender, so that the sender's drop is in the journal.
///     _saved: SaveOnPanic,
/// }
///
/// let recorder = Recorder::new();
/// let _entered = recorder.enter();
/// let context = Context {
///     orders: broadcast::Sender::new(4),
///     _saved: recorder.save_on_panic("each_order_is_audited"),
/// };
/// let mut audit = context.orders.subscribe();
/// std::thread::spawn(move || context.orders.send(71).unwrap()).join().unwrap();
/// assert_eq!(audit.try_recv(), Ok(71));
/// ```
#[derive(Debug)]
pub struct SaveOnPanic {
    pub(super) recorder: Recorder,
    pub(super) test: Arc<TestRun>,
    pub(super) watchdog: Option<Watchdog>,
    // Then a panic isn't one of this test.
    began_in_panic: bool,
}

impl SaveOnPanic {
    /// Passes on the result of a test that returns one, as [`ForTest::save_on_err`] does.
    ///
    /// # Examples
    ///
    /// ```
    /// use yovanelum::{Recorder, broadcast};
    ///
    /// let recorder = Recorder::new();
    /// let _entered = recorder.enter();
    /// let saved = recorder.save_on_panic("each_price_arrives");
    /// let (prices, mut chart) = broadcast::channel(2);
    /// prices.send(101).unwrap();
    /// assert_eq!(saved.save_on_err(chart.try_recv()), Ok(101));
    /// ```
    #[track_caller]
    pub fn save_on_err<T, E: fmt::Debug>(&self, result: Result<T, E>) -> Result<T, E> {
        if let Err(error) = &result {
            self.test.note_error(error, Location::caller());
        }
        result
    }

    /// Whether the test failed, as far as it has ended.
    fn has_failed(&self) -> bool {
        let has_panicked = thread::panicking() && !self.began_in_panic;
        has_panicked || self.test.has_returned_error() || self.test.is_reported()
    }

    /// Whether the test failed, or its journal is to be saved all the same.
    fn is_wanted(&self) -> bool {
        if explore::is_quiet() {
            return false;
        }
        match (thread::panicking(), self.began_in_panic) {
            (true, true) => false,
            (true, false) => true,
            (false, _) => self.test.has_returned_error() || env::var_os("YOVANELUM_KEEP").is_some(),
        }
    }
}

impl Drop for SaveOnPanic {
    fn drop(&mut self) {
        // The test has ended, so a report on those who wait would come late.
        self.watchdog = None;
        let has_failed = self.has_failed();
        if thread::panicking() && !self.began_in_panic {
            self.test.note_unwinding();
        }
        self.recorder.0.end_replay(&self.test, has_failed);
        let last = self.recorder.0.last();
        explore::end(&self.recorder, has_failed, likely_cause);
        let met = exploring::answer(&self.recorder.0, last);
        let is_met = met.is_some() && explore::is_run_of_search() && !explore::is_quiet();
        if self.is_wanted() || is_met {
            // A panic in a drop while a panic unwinds would end the process, and with it all other
            // tests.
            let call = met.filter(|_| !has_failed);
            let report = || self.test.report(&self.recorder.0, has_failed, call);
            let _ = panic::catch_unwind(AssertUnwindSafe(report));
        } else if !self.began_in_panic && explored().is_none() {
            self.test.say_if_nothing(&self.recorder.0);
            if !has_failed {
                self.test.keep_passing(&self.recorder.0);
            }
        }
        self.recorder.0.end_watching();
    }
}
