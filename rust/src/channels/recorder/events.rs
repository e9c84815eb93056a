//! The closures of a recorder that are called with events of its channels.

use super::Recorder;
use crate::channels::events::{Close, Lag};

impl Recorder {
    /// Calls a closure each time a receiver of this recorder's channels lags. Returns the recorder,
    /// for the next call.
    ///
    /// The closure is called by the receive that returns `Lagged`, before it returns. It replaces
    /// one that was set before. While it runs there is no lock of this crate, so it may use any
    /// channel, also this one. A panic in it is one of the receive, which has then counted the
    /// values as lost: so a test fails where somebody lags, if the closure panics.
    ///
    /// The recorder holds the closure until it is dropped with its clones and guards. From then on,
    /// and for a recorder without a closure, the one of the process is called, if there is one:
    /// [`yovanelum::on_lag`](crate::on_lag).
    ///
    /// # Examples
    ///
    /// A test in which nobody may lag:
    ///
    /// ```should_panic
    /// use yovanelum::{Recorder, broadcast};
    ///
    /// let recorder = Recorder::for_test("nobody_lags");
    /// recorder.on_lag(|lag| panic!("{lag}"));
    /// let (prices, mut chart) = broadcast::channel(2);
    /// for price in [101, 102, 103] {
    ///     prices.send(price).unwrap();
    /// }
    /// // This loop passes over a loss in silence. The test fails all the same.
    /// while let Err(broadcast::error::TryRecvError::Lagged(_)) = chart.try_recv() {}
    /// ```
    pub fn on_lag(&self, told: impl Fn(&Lag) + Send + Sync + 'static) -> &Recorder {
        self.1.hooks().on_lag(told);
        self
    }

    /// Calls a closure each time the last sender of one of this recorder's channels is dropped.
    /// Returns the recorder, for the next call.
    ///
    /// The closure is called by the drop, once those who wait are woken. What
    /// [`on_lag`](Recorder::on_lag) says of the closure is so here too. A panic in it is one of the
    /// drop. If the thread panics already, that one goes on.
    ///
    /// # Examples
    ///
    /// ```
    /// use std::sync::atomic::{AtomicU64, Ordering};
    /// use yovanelum::{Recorder, watch};
    ///
    /// static LEFT: AtomicU64 = AtomicU64::new(0);
    ///
    /// let recorder = Recorder::new();
    /// recorder.on_close(|close| LEFT.store(close.receivers(), Ordering::Relaxed));
    /// let _entered = recorder.enter();
    /// let (config, _server) = watch::channel("v1");
    /// let _client = config.subscribe();
    /// drop(config);
    /// assert_eq!(LEFT.load(Ordering::Relaxed), 2);
    /// ```
    pub fn on_close(&self, told: impl Fn(&Close) + Send + Sync + 'static) -> &Recorder {
        self.1.hooks().on_close(told);
        self
    }
}
