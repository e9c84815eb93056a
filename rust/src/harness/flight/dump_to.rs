//! What sets when a flight recorder writes its dumps.

use super::on_panic;
use crate::channels::recorder::{DumpSettings, Shared};
use crate::harness::panic_hook;
use std::sync::Arc;
use std::time::Duration;

/// When a flight recorder writes dumps, returned by
/// [`Recorder::dump_to`](crate::Recorder::dump_to).
///
/// What it sets holds from then on, also when this is dropped. A later call of `dump_to` sets the
/// folder alone, and goes on with the rest.
///
/// # Examples
///
/// A receiver that lags, and the page of its run:
///
/// ```
/// use std::{env, process};
/// use yovanelum::{DumpTo, Recorder, broadcast};
///
/// let recorder = Recorder::flight(1_000);
/// let folder = env::temp_dir().join(format!("lags-{}", process::id()));
/// let _: DumpTo = recorder.dump_to(&folder).when_lag(3).keep(5);
/// let _entered = recorder.enter();
/// let (prices, mut chart) = broadcast::channel(2);
/// for price in [101, 102, 103, 104, 105] {
///     prices.send(price).unwrap();
/// }
/// // It has lost 3 values, and a dump is begun.
/// assert!(chart.try_recv().is_err());
/// # while recorder.dumps().written() == 0 { std::thread::yield_now(); }
/// # std::fs::remove_dir_all(folder)?;
/// # Ok::<(), std::io::Error>(())
/// ```
#[derive(Clone)]
pub struct DumpTo(Arc<Shared>);

impl std::fmt::Debug for DumpTo {
    fn fmt(&self, f: &mut std::fmt::Formatter<'_>) -> std::fmt::Result {
        f.debug_struct("DumpTo").finish_non_exhaustive()
    }
}

impl DumpTo {
    pub(super) fn new(recorder: &Arc<Shared>) -> DumpTo {
        DumpTo(recorder.clone())
    }

    fn set(self, set: impl FnOnce(&mut DumpSettings)) -> DumpTo {
        if let Some(flight) = &self.0.flight {
            flight.dumping.set(set);
        }
        self
    }

    /// Writes a dump when a receiver is told, by `Lagged`, that it has lost at least this number of
    /// values.
    ///
    /// # Examples
    ///
    /// ```
    /// use yovanelum::Recorder;
    ///
    /// Recorder::flight(10_000).dump_to("/var/log/exchange").when_lag(1_000);
    /// ```
    pub fn when_lag(self, values: u64) -> DumpTo {
        if let Some(flight) = &self.0.flight {
            flight.dumping.set_lag(values);
        }
        self
    }

    /// Writes a dump when the last sender of a channel with this name is dropped. It can be called
    /// for several names.
    ///
    /// # Examples
    ///
    /// ```
    /// use yovanelum::{Recorder, watch};
    ///
    /// let recorder = Recorder::flight(10_000);
    /// recorder.dump_to("/var/log/exchange").when_closed("config");
    /// let _entered = recorder.enter();
    /// let (config, _server) = watch::channel("v1");
    /// recorder.name(&config, "config");
    /// ```
    pub fn when_closed(self, channel: &str) -> DumpTo {
        self.set(|settings| settings.closed.push(channel.to_string()))
    }

    /// Writes a dump when a thread of the process panics.
    ///
    /// The first recorder of a process that does so sets a hook for panics, which calls the
    /// previous hook after it. If the thread is the main one, or the process ends with the panic,
    /// the hook waits for the dump, 5 seconds at most. What that thread has locked is left out.
    /// The first panic at each place in the sources has a dump, and further ones have at most one
    /// within [`at_most_every`](DumpTo::at_most_every), but for the one that ends the process.
    /// There is none if 8 such ones are not yet written.
    ///
    /// # Examples
    ///
    /// ```
    /// use yovanelum::Recorder;
    ///
    /// Recorder::flight(10_000).dump_to("/var/log/exchange").on_panic();
    /// ```
    pub fn on_panic(self) -> DumpTo {
        panic_hook::install();
        on_panic::follow(&self.0);
        self
    }

    /// Begins no dump for a lag within this time after the last one for a lag, and so for channels
    /// that close and for panics at one place. Who [asks](crate::Recorder::dump) has one in any
    /// case.
    /// Without this call it is a minute.
    ///
    /// # Examples
    ///
    /// ```
    /// use std::time::Duration;
    /// use yovanelum::Recorder;
    ///
    /// let recorder = Recorder::flight(10_000);
    /// recorder.dump_to("/var/log/exchange").at_most_every(Duration::from_secs(600));
    /// ```
    pub fn at_most_every(self, time: Duration) -> DumpTo {
        self.set(|settings| settings.at_most_every = time)
    }

    /// Keeps the last `dumps` dumps of the folder for lags, as many for closes, for panics and for
    /// requests, and removes older ones, whichever process has written them. Dumps that have a
    /// later time than now are removed first, since the clock was set back. Without this call 16 of
    /// each are kept. One is kept at least.
    ///
    /// What is left of a dump that was never whole, since its process was killed, doesn't count.
    /// The next dump removes it on Linux, and elsewhere one that comes ten minutes later.
    ///
    /// # Examples
    ///
    /// ```
    /// use yovanelum::Recorder;
    ///
    /// Recorder::flight(10_000).dump_to("/var/log/exchange").keep(5);
    /// ```
    pub fn keep(self, dumps: usize) -> DumpTo {
        self.set(|settings| settings.keep = dumps.max(1))
    }
}
