//! What a recorder has recorded: its journal, the names, and the files of both.

use crate::channels::recorder::{Recorder, Waiting};
use std::io;
use std::path::Path;

impl Recorder {
    /// Returns the text of the journal so far: all calls up to one moment, and none after it.
    ///
    /// `ttd check`, `ttd debug` and the page read it. An entry has a stamp, which increases from
    /// entry to entry, the number of the caller and the number of the channel, then the call with
    /// the number of its sender or receiver, and what it returned. This can be called at any time,
    /// also while other threads use the channels.
    ///
    /// # Errors
    ///
    /// Returns an error if no channel belongs to the recorder, or if there is no memory for the
    /// text. The text of the first says what to do.
    ///
    /// # Examples
    ///
    /// ```
    /// use yovanelum::{Recorder, broadcast};
    ///
    /// let recorder = Recorder::new();
    /// let _entered = recorder.enter();
    /// let (prices, mut chart) = broadcast::channel(2);
    /// for price in [101, 102, 103] {
    ///     prices.send(price).unwrap();
    /// }
    /// assert!(chart.try_recv().is_err());
    ///
    /// let journal = recorder.journal().unwrap();
    /// let entries: Vec<_> = journal.lines().filter(|line| line.contains(" = ")).collect();
    /// assert_eq!(entries[2..], ["3 0 0 send 0 2 = sent 1", "4 0 0 try-recv 1 = lagged 1"]);
    /// ```
    pub fn journal(&self) -> io::Result<String> {
        self.0.run().journal()
    }

    /// Returns the names that belong to the journal, as JSON.
    ///
    /// `actors` has the names of threads, tasks and [`named`](crate::named) futures, `channels`
    /// those of channels, both by number, and `handles` those of senders and receivers by channel.
    /// `values` has the texts of each channel's values. What has no name is left out.
    ///
    /// `locations` has locations in the source, as file, line and column. The other keys have
    /// indexes into it: `made` where each sender and receiver was created, `calls` where each call
    /// of a channel was made, in the order of its entries, `tasks` where each task without a name
    /// has made its first call, and `waiting` where the calls that wait were made. The drop of a
    /// sender or a receiver is called by the compiler, so its location is `null`.
    ///
    /// # Examples
    ///
    /// ```
    /// use yovanelum::{Recorder, block_on, broadcast, named};
    ///
    /// let recorder = Recorder::new();
    /// let _entered = recorder.enter();
    /// let (prices, chart) = broadcast::channel(2);
    /// recorder.name(&prices, "prices").show(&prices, |price| format!("{price} EUR"));
    /// recorder.name(&chart, "chart");
    /// block_on(named("exchange", async { prices.send(101) })).unwrap();
    ///
    /// let wanted = r#"
    ///   "actors": {"0": "exchange"},
    ///   "channels": {"0": "prices"},
    ///   "values": {"0": {"0": "101 EUR"}},
    ///   "handles": {"0": {"1": "chart"}},
    ///   "locations": [["#;
    /// assert!(recorder.names().contains(wanted));
    /// ```
    pub fn names(&self) -> String {
        let run = self.0.run();
        let names = run.saved(None).map(|saved| saved.names);
        names.unwrap_or_else(|_| run.names()).to_json()
    }

    /// Writes the journal to a file, and the names to a file beside it: those of `RUN.journal` to
    /// `RUN.names`.
    ///
    /// Files with these names are overwritten. This can be called at any time, as
    /// [`journal`](Recorder::journal).
    ///
    /// # Errors
    ///
    /// Returns an error if [`journal`](Recorder::journal) does, and then no file is changed, or if
    /// a file cannot be written. If only the names cannot be written, the journal has been written.
    ///
    /// # Examples
    ///
    /// ```
    /// use std::{env, fs, process};
    /// use yovanelum::{Recorder, broadcast};
    ///
    /// let recorder = Recorder::new();
    /// let _entered = recorder.enter();
    /// let (prices, _chart) = broadcast::channel(2);
    /// prices.send(101).unwrap();
    ///
    /// let path = env::temp_dir().join(format!("prices-{}.journal", process::id()));
    /// recorder.save(&path)?;
    /// assert_eq!(fs::read_to_string(&path)?, recorder.journal()?);
    /// assert_eq!(fs::read_to_string(path.with_extension("names"))?, recorder.names());
    /// # fs::remove_file(path.with_extension("names"))?;
    /// # fs::remove_file(&path)?;
    /// # Ok::<(), std::io::Error>(())
    /// ```
    pub fn save(&self, path: impl AsRef<Path>) -> io::Result<()> {
        self.0.run().save(path.as_ref())
    }

    /// Returns the number of calls that are recorded, on the channels of the run.
    ///
    /// # Examples
    ///
    /// ```
    /// use yovanelum::{Recorder, broadcast};
    ///
    /// let recorder = Recorder::new();
    /// let _entered = recorder.enter();
    /// let (prices, mut chart) = broadcast::channel(2);
    /// prices.send(101).unwrap();
    /// chart.try_recv().unwrap();
    /// assert_eq!(recorder.len(), 2);
    /// drop(chart);
    /// assert_eq!(recorder.len(), 3);
    /// ```
    pub fn len(&self) -> u64 {
        self.0.run().len()
    }

    /// Returns `true` if no call is recorded.
    ///
    /// # Examples
    ///
    /// ```
    /// use yovanelum::{Recorder, broadcast};
    ///
    /// let recorder = Recorder::new();
    /// let _entered = recorder.enter();
    /// let (prices, _chart) = broadcast::channel(2);
    /// assert!(recorder.is_empty());
    /// prices.send(101).unwrap();
    /// assert!(!recorder.is_empty());
    /// ```
    pub fn is_empty(&self) -> bool {
        self.len() == 0
    }

    /// Returns the calls on this recorder's channels that wait now, in the order in which they
    /// began to.
    ///
    /// These are the calls of `recv`, `blocking_recv`, `changed`, `wait_for` and `closed` that were
    /// polled and have not ended. Those that were woken and have not gone on since are among them,
    /// and say so by [`is_woken`](Waiting::is_woken): all others wait. A future that was dropped is
    /// gone, and one that was forgotten stays until its receiver goes on. A call on a watch that
    /// blocks its thread is among them, such as a `send` while a [`Ref`](crate::watch::Ref) is
    /// alive. This can be called at any time, also while other threads use the channels.
    ///
    /// # Examples
    ///
    /// A worker waits for a state that never comes:
    ///
    /// ```
    /// use std::thread;
    /// use yovanelum::{Recorder, block_on, watch};
    ///
    /// let recorder = Recorder::new();
    /// let _entered = recorder.enter();
    /// let (state, mut rx) = watch::channel("loading");
    /// recorder.name(&state, "state");
    /// let worker = thread::Builder::new().name("worker".into());
    /// let worker = worker.spawn(move || block_on(async { rx.wait_for(|state| *state == "ready").await.is_ok() }));
    ///
    /// while recorder.waiting().is_empty() {
    ///     thread::yield_now();
    /// }
    /// let waiting = recorder.waiting();
    /// assert_eq!(waiting[0].actor(), "worker");
    /// assert!(waiting[0].to_string().starts_with("worker in `state.wait_for`, "));
    ///
    /// state.send("ready").unwrap();
    /// assert!(worker.unwrap().join().unwrap());
    /// assert!(recorder.waiting().is_empty());
    /// ```
    pub fn waiting(&self) -> Vec<Waiting> {
        self.0.run().waiting()
    }
}
