//! Events of the channels of [`yovanelum`] for [`tracing`]: a receiver lags, or a channel closes.
//!
//! A service that logs by tracing calls [`install`] when it starts. From then on each `Lagged` of a
//! broadcast channel is an event, which says what the error doesn't: which channel and which
//! receiver it was, where they were created, how much was lost, and who sent last.
//!
//! The target of the events is `yovanelum`. A lag has the level warn, and a channel whose last
//! sender is dropped the level info, since most channels are closed on purpose.
//!
//! | Field | Event | |
//! |---|---|---|
//! | `message` | both | the event as one line |
//! | `channel`, `channel_made_at`, `capacity` | both | the channel; a watch channel has no capacity |
//! | `sender`, `sent_at` | both | who sent last, and where, if anything was sent |
//! | `overwritten_by`, `overwritten_at` | lag | whose send overwrote the first lost value, and where, if a recorder keeps it |
//! | `receiver`, `receiver_made_at` | lag | the receiver |
//! | `received_at` | lag | where the receive was called |
//! | `lost`, `lost_in_all` | lag | how many values the receiver has lost now, and since it was created |
//! | `unread` | both | how many values it has yet to receive; of a close, the receiver that is most behind |
//! | `closed_by`, `sent`, `receivers` | close | who dropped the last sender, how much was sent, how many receivers are left |
//!
//! A place is `src/main.rs:9:5`: file, line and column.
//!
//! # Examples
//!
//! ```
//! use yovanelum::{Recorder, broadcast};
//!
//! tracing_subscriber::fmt().init();
//! yovanelum_tracing::install();
//!
//! let (prices, mut chart) = broadcast::channel(2);
//! Recorder::off().name(&prices, "prices").name(&chart, "chart");
//! for price in [101, 102, 103] {
//!     prices.send(price).unwrap();
//! }
//! // Logs "WARN yovanelum: `chart` lost 1 value of `prices` (capacity 2), .. channel="prices" receiver="chart" lost=1 .."
//! assert!(chart.try_recv().is_err());
//! ```

use tracing::field;
use yovanelum::{Close, Lag};

/// The target of each event.
const TARGET: &str = "yovanelum";

/// Emits an event for each lag and each close of the process's channels, from now on.
///
/// It sets the closures of [`yovanelum::on_lag`] and [`yovanelum::on_close`], and replaces those
/// that were set before. A program that does more with an event sets its own closure, and calls
/// [`lag`] or [`close`] in it.
///
/// # Examples
///
/// A service that counts lags, too:
///
/// ```
/// use std::sync::atomic::{AtomicU64, Ordering};
///
/// static LOST: AtomicU64 = AtomicU64::new(0);
///
/// yovanelum_tracing::install();
/// yovanelum::on_lag(|lag| {
///     LOST.fetch_add(lag.lost(), Ordering::Relaxed);
///     yovanelum_tracing::lag(lag);
/// });
/// ```
pub fn install() {
    yovanelum::on_lag(lag);
    yovanelum::on_close(close);
}

/// Emits an event for a lag.
///
/// # Examples
///
/// The lags of one test:
///
/// ```
/// use yovanelum::Recorder;
///
/// let recorder = Recorder::for_test("prices_are_drawn");
/// recorder.on_lag(yovanelum_tracing::lag);
/// ```
pub fn lag(lag: &Lag) {
    tracing::warn!(
        target: TARGET,
        channel = lag.channel(),
        channel_made_at = lag.channel_made_at().map(field::display),
        capacity = lag.capacity(),
        receiver = lag.receiver(),
        receiver_made_at = lag.receiver_made_at().map(field::display),
        received_at = lag.received_at().map(field::display),
        lost = lag.lost(),
        lost_in_all = lag.lost_in_all(),
        unread = lag.unread(),
        sender = lag.sender(),
        sent_at = lag.sent_at().map(field::display),
        overwritten_by = lag.overwritten_by(),
        overwritten_at = lag.overwritten_at().map(field::display),
        "{lag}"
    );
}

/// Emits an event for the drop of a channel's last sender.
///
/// # Examples
///
/// ```
/// yovanelum::on_close(|close| {
///     // The others were closed when nobody listened any more.
///     if close.receivers() > 0 {
///         yovanelum_tracing::close(close);
///     }
/// });
/// ```
pub fn close(close: &Close) {
    tracing::info!(
        target: TARGET,
        channel = close.channel(),
        channel_made_at = close.channel_made_at().map(field::display),
        capacity = close.capacity(),
        closed_by = close.closed_by(),
        sent = close.sent(),
        receivers = close.receivers(),
        unread = close.unread(),
        sender = close.sender(),
        sent_at = close.sent_at().map(field::display),
        "{close}"
    );
}

// Runs the program of the README.
#[cfg(doctest)]
#[doc = include_str!("../README.md")]
struct Readme;
