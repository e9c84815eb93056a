//! A thread that says which calls wait if a test has not ended in time.

use super::ending::{self, WRITING};
use super::for_test::{ForTest, SaveOnPanic};
use super::reader;
use super::saved::Saved;
use super::test_run::TestRun;
use crate::channels::lock::lock;
use crate::channels::oneshot::{self, Receiver, Sender};
use crate::channels::recorder::Shared;
use crate::schedule::explore::WaitingTask;
use std::io::{self, Write};
use std::sync::Arc;
use std::thread;
use std::time::Duration;

/// How many calls that wait are listed. The others are counted.
const LISTED: usize = 10;

/// A thread that waits until the test has ended, or some time has passed. It ends with the test,
/// which never waits for it.
#[derive(Debug)]
pub(super) struct Watchdog {
    // Nothing is sent. The drop of this says that the test has ended.
    _is_running: Sender<()>,
}

impl Watchdog {
    /// Starts the thread. If there can be none, a line on standard error says so.
    fn start(test: &Arc<TestRun>, after: Duration) -> Watchdog {
        let (is_running, ended) = oneshot::channel();
        let name = test.name.clone();
        let watched = Watched {
            test: test.clone(),
            after,
            ended,
        };
        let thread = thread::Builder::new().name("yovanelum-watchdog".into());
        let watch: Box<dyn FnOnce() + Send> = Box::new(move || watched.wait());
        if let Err(error) = thread.spawn(watch) {
            eprintln!("yovanelum: no watchdog watches {name}: {error}");
        }
        Watchdog {
            _is_running: is_running,
        }
    }
}

/// What the thread of a watchdog watches.
struct Watched {
    test: Arc<TestRun>,
    after: Duration,
    ended: Receiver<()>,
}

impl Watched {
    fn wait(&self) {
        if !self.ended.is_closed_within(self.after) {
            let _writing = lock(&WRITING);
            // A test that has ended since has written what there was to write.
            let has_ended = self.ended.is_closed_within(Duration::ZERO);
            if let Some(recorder) = self.test.recorder.upgrade().filter(|_| !has_ended) {
                let why = format!("has not ended after {:?}", self.after);
                self.test.report_waiting(&recorder, &why, false);
            }
        }
    }
}

impl TestRun {
    /// Writes the files of this test, which hangs in a run that is explored, and says who waits.
    pub(super) fn report_hung(&self, waiting: &[WaitingTask]) {
        const WHY: &str = "hangs: everybody waits forever";
        let _writing = lock(&WRITING);
        let Some(recorder) = self.recorder.upgrade() else {
            return;
        };
        if !recorder.has_nothing() {
            return self.report_waiting(&recorder, WHY, true);
        }
        // Without a channel there are no files, and no call waits.
        let mut lines = format!("yovanelum: {} {WHY}\n", self.name);
        for WaitingTask { what, at, who } in waiting {
            let at = at.as_ref().map(|(file, line)| format!(", {file}:{line}"));
            let at = at.unwrap_or_default();
            lines.push_str(&format!(
                "yovanelum: still waiting: {who} in `{what}`{at}\n"
            ));
        }
        let _ = io::stderr().write_all(lines.as_bytes());
    }

    /// Writes the files of this test, and then to standard error. `eprintln` would keep the lines
    /// of a test until its end, which may never come.
    fn report_waiting(&self, recorder: &Shared, why: &str, is_replayed: bool) {
        let path = self.journal_path(recorder);
        let run = recorder.run();
        let (mut told, mut pending) = (String::new(), vec![]);
        let mut waiting = run.waiting();
        let saved = run.saved(Some(self)).and_then(|saved| {
            let Saved {
                run,
                journal,
                mut names,
            } = saved;
            names.ending.hangs = true;
            waiting
                .iter_mut()
                .for_each(|call| call.name_channel(&names));
            match reader::report(&run, &journal, &names, ending::options(&path, false)) {
                Ok(report) => {
                    (told, pending) = (report.told, report.pending);
                    let page = report.page.as_deref().map_err(String::as_str);
                    let written = (&*report.names, page);
                    ending::write((&path, self.number), &journal, written, report.call)
                }
                Err(why) => {
                    pending = vec![format!("no report of {}, {why}", self.name)];
                    let names = names.to_json();
                    let written = (&*names, Err("no report"));
                    ending::write((&path, self.number), &journal, written, 0)
                }
            }
        });
        let name = &self.name;
        let mut lines = match &saved {
            Ok((path, _)) => format!(
                "yovanelum: {name} {why}; its calls so far are in {}\n",
                path.display()
            ),
            Err(error) => format!(
                "yovanelum: {name} {why}; {} isn't written: {error}\n",
                path.display()
            ),
        };
        for call in waiting.iter().take(LISTED) {
            lines.push_str(&format!("yovanelum: still waiting: {call}\n"));
        }
        match waiting.len() {
            0 => lines.push_str("yovanelum: no call on its channels waits\n"),
            count if count > LISTED => {
                lines.push_str(&format!("yovanelum: and {} more\n", count - LISTED));
            }
            _ => {}
        }
        for line in pending {
            lines.push_str(&format!("yovanelum: {line}\n"));
        }
        lines.push_str(&told);
        if let Ok((path, look)) = saved {
            lines.push_str(&format!("look: {look}\n"));
            if is_replayed {
                lines.push_str(&self.line_of_replay(&path));
            }
        }
        // If standard error is closed, nobody reads it.
        let _ = io::stderr().write_all(lines.as_bytes());
    }
}

impl ForTest {
    /// Reports which calls wait if the test has not ended after this time, and lets it go on.
    /// Returns the recorder of the test.
    ///
    /// The journal, the names and the page are then written as if the test had failed. Lines on
    /// standard error say where they are, and which calls on the recorder's channels wait: who, in
    /// which method, and where. They appear at once, also where the output of tests is captured. So
    /// a test that waits forever has said why before a runner ends it.
    ///
    /// A test that ends before is not affected: nothing is written, and it waits for no thread. A
    /// second call replaces the time.
    ///
    /// # Examples
    ///
    /// ```
    /// use std::time::Duration;
    /// use yovanelum::{Recorder, watch};
    ///
    /// let recorder = Recorder::for_test("the_state_is_ready").watchdog(Duration::from_secs(10));
    /// let (state, rx) = watch::channel("loading");
    /// recorder.name(&state, "state");
    /// state.send("ready").unwrap();
    /// assert_eq!(*rx.borrow(), "ready");
    /// ```
    ///
    /// If a worker waited in it for another state, these lines would appear after ten seconds:
    ///
    /// ```text
    /// yovanelum: the_state_is_ready has not ended after 10s; its calls so far are in /shop/target/yovanelum/shop/lib/the_state_is_ready.journal
    /// yovanelum: still waiting: worker in `state.wait_for`, src/worker.rs:30
    /// error: `state.wait_for` of worker waits: `state` was never changed
    ///   --> src/worker.rs:30:24
    ///   the start   state.wait_for   worker  src/worker.rs:30   waits
    ///   senders: sender 0 of src/lib.rs:12 (never used)
    /// look: file:///shop/target/yovanelum/shop/lib/the_state_is_ready.html#call=1
    /// ```
    #[must_use = "dropped at once, it records nothing"]
    pub fn watchdog(mut self, after: Duration) -> ForTest {
        self.saved = self.saved.watchdog(after);
        self
    }
}

impl SaveOnPanic {
    /// Reports which calls wait if this is not dropped after this time, as [`ForTest::watchdog`]
    /// does for a test.
    ///
    /// # Examples
    ///
    /// ```
    /// use std::time::Duration;
    /// use yovanelum::{Recorder, SaveOnPanic, broadcast};
    ///
    /// let recorder = Recorder::new();
    /// let _entered = recorder.enter();
    /// let saved: SaveOnPanic = recorder.save_on_panic("a_price_arrives").watchdog(Duration::from_secs(10));
    /// let (prices, mut chart) = broadcast::channel(2);
    /// prices.send(101).unwrap();
    /// assert_eq!(chart.try_recv(), Ok(101));
    /// ```
    #[must_use = "dropped at once, it sees no panic"]
    pub fn watchdog(mut self, after: Duration) -> SaveOnPanic {
        self.watchdog = Some(Watchdog::start(&self.test, after));
        self
    }
}

#[cfg(test)]
mod tests {
    use super::*;
    use crate::Recorder;
    use crate::harness::test_run::name_of_thread;
    use std::sync::mpsc;

    #[test]
    #[cfg_attr(target_family = "wasm", ignore = "WebAssembly has no threads")]
    fn the_thread_ends_with_the_test_and_writes_nothing() {
        let recorder = Recorder::new();
        let (is_running, ended) = oneshot::channel();
        let name = crate::temporary::name("ended");
        let watched = Watched {
            test: TestRun::start(&recorder.0, &name, name_of_thread()),
            after: Duration::from_secs(3600),
            ended,
        };
        let path = watched.test.journal_path(&recorder.0);
        let (over, is_over) = mpsc::channel();
        thread::spawn(move || {
            watched.wait();
            over.send(()).unwrap();
        });
        drop(is_running);
        is_over.recv_timeout(Duration::from_secs(600)).unwrap();
        assert!(!path.exists());
    }
}
