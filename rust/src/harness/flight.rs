//! The dumps of flight recorders: journals of the last calls of each channel.

mod dump_to;
mod files;
mod on_panic;
mod writing;

pub use dump_to::DumpTo;
pub(super) use on_panic::dump_on_panic;

use crate::channels::recorder::{Dump, DumpRequest, Dumps, Recorder, Shared};
use std::path::Path;
use std::sync::Arc;

impl Recorder {
    /// Creates a flight recorder: one that keeps the last calls of each channel, in memory that
    /// does not grow.
    ///
    /// It is for a service that runs for weeks. Of each channel it keeps at least
    /// `calls_per_channel` calls, and at most twice as many, or all while there are fewer. Where a
    /// channel retains many values or has many handles, it keeps more: up to as many calls as
    /// values and two for each handle, and never over 196,604 for that. Each time that half as many
    /// calls were made, these are copied. A call takes some 50 bytes. When something happens, a
    /// [dump](Recorder::dump_to) writes them as a journal, which `ttd`, the page and
    /// `yovanelum why` open as any other. See [`guide::flight`](crate::guide::flight).
    ///
    /// At least 2 calls are kept, and at most 524,288 to 1,048,576 are. 10,000 calls are right for
    /// most services.
    ///
    /// Of the [limits](Recorder#limits), the one of entries does not end its recording. It gives
    /// 63 numbers to threads and tasks; of those that share the last one, the names of a dump say
    /// who has made each call. Where a channel has 65,534 senders and receivers that are alive or
    /// were dropped within `calls_per_channel` calls, the calls before are forgotten. If nearly all
    /// of them are alive, its calls are not kept until there is room again: until at most 49,149
    /// are alive, and none of those that were created beyond the first 65,534.
    ///
    /// # Examples
    ///
    /// ```
    /// use yovanelum::{Recorder, broadcast};
    ///
    /// let recorder = Recorder::flight(100);
    /// let _entered = recorder.enter();
    /// let (prices, mut chart) = broadcast::channel(16);
    /// for price in 0..1_000_000 {
    ///     prices.send(price).unwrap();
    ///     assert_eq!(chart.try_recv(), Ok(price));
    /// }
    /// assert!(recorder.len() >= 100 && recorder.len() <= 200);
    ///
    /// // It begins with a lead, which nobody has called, and ends with the last receive.
    /// let journal = recorder.journal().unwrap();
    /// assert!(journal.ends_with(" = value 999999\nend\n"));
    /// ```
    pub fn flight(calls_per_channel: usize) -> Recorder {
        Recorder::with(Arc::new(Shared::flight(calls_per_channel, writing::write)))
    }

    /// Sets the folder for the dumps of a flight recorder, and returns what sets when they are
    /// written.
    ///
    /// A dump is a journal `flight-TIME-PID-N-TRIGGER.journal` with its names beside it. The folder
    /// is created if it is not there. Both files are written under other names first, and take
    /// their places when they are whole. On Unix, none but the user of the process may read them,
    /// nor a folder that is created.
    ///
    /// It has the last calls of all channels, of one moment, and at most 1,000,000 of them. A
    /// channel is locked while its calls are copied, as [`guide::flight`](crate::guide::flight)
    /// says in microseconds. A thread of the dump's own does the rest. If the dump fails, one line
    /// on standard error says why, and [`dumps`](Recorder::dumps) counts it. No call of a channel
    /// fails or waits for it.
    ///
    /// # Panics
    ///
    /// Panics if the recorder is not a [`flight`](Recorder::flight) recorder.
    ///
    /// # Examples
    ///
    /// ```no_run
    /// use std::time::Duration;
    /// use yovanelum::Recorder;
    ///
    /// let recorder = Recorder::flight(10_000);
    /// let _installed = recorder.install();
    /// recorder
    ///     .dump_to("/var/log/exchange")
    ///     .when_lag(1_000)
    ///     .when_closed("config")
    ///     .on_panic()
    ///     .at_most_every(Duration::from_secs(600))
    ///     .keep(5);
    /// ```
    #[track_caller]
    pub fn dump_to(&self, folder: impl AsRef<Path>) -> DumpTo {
        let Some(flight) = &self.0.flight else {
            panic!(
                "yovanelum: this recorder is no flight recorder: `Recorder::flight` creates one"
            );
        };
        flight.dumping.set_folder(folder.as_ref());
        DumpTo::new(&self.0)
    }

    /// Begins a dump of a flight recorder, for this reason, and returns it.
    ///
    /// It does not wait. The returned [`Dump`] can be dropped, or waited for. Those that are asked
    /// for are not limited in time. If another one is being written, it comes after that one, with
    /// the calls until now. There is none if 8 that somebody has asked for are not yet written.
    ///
    /// # Examples
    ///
    /// ```
    /// use std::{env, fs, process};
    /// use yovanelum::{Recorder, broadcast};
    ///
    /// let recorder = Recorder::flight(100);
    /// let folder = env::temp_dir().join(format!("dumps-{}", process::id()));
    /// recorder.dump_to(&folder);
    /// let _entered = recorder.enter();
    /// let (prices, _chart) = broadcast::channel(16);
    /// prices.send(101).unwrap();
    ///
    /// let path = recorder.dump("an operator has asked for it").wait()?;
    /// assert!(fs::read_to_string(&path)?.contains(" send 0 0 = sent 1"));
    /// let names = fs::read_to_string(path.with_extension("names"))?;
    /// assert!(names.contains(r#""reason": "an operator has asked for it""#));
    /// # fs::remove_dir_all(folder)?;
    /// # Ok::<(), std::io::Error>(())
    /// ```
    pub fn dump(&self, reason: &str) -> Dump {
        DumpRequest::asked(&self.0, reason)
    }

    /// Returns how many dumps were written and failed, and how many there were none of since others
    /// were too near.
    ///
    /// # Examples
    ///
    /// ```
    /// use yovanelum::Recorder;
    ///
    /// let recorder = Recorder::flight(100);
    /// // It has no folder.
    /// assert!(recorder.dump("a try").wait().is_err());
    /// let dumps = recorder.dumps();
    /// assert_eq!((dumps.written(), dumps.failed(), dumps.left_out()), (0, 1, 0));
    /// ```
    pub fn dumps(&self) -> Dumps {
        let flight = self.0.flight.as_ref();
        flight.map_or_else(Dumps::default, |flight| flight.dumping.counts())
    }
}
