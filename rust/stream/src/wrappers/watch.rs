//! Streams of the values of a watch.

use futures_core::Stream;
use std::fmt;
use std::pin::Pin;
use std::task::{Context, Poll, ready};
use yovanelum::Polled;
use yovanelum::watch::Receiver;

/// A wrapper around [`Receiver`] that implements [`Stream`].
///
/// Its items are clones of the last value: the first one of the value at the first poll, also if
/// the receiver has seen it, and each later one of a value that it has not seen. As in
/// tokio-stream, values that are replaced quickly may be skipped. The stream ends when every sender
/// has been dropped and the last value was an item.
///
/// # Examples
///
/// ```
/// use tokio_stream::StreamExt;
/// use yovanelum::{block_on, watch};
/// use yovanelum_stream::wrappers::WatchStream;
///
/// let (state, rx) = watch::channel("starting");
/// let mut states = WatchStream::new(rx);
/// block_on(async {
///     assert_eq!(states.next().await, Some("starting"));
///     state.send("ready").unwrap();
///     assert_eq!(states.next().await, Some("ready"));
///     drop(state);
///     assert_eq!(states.next().await, None);
/// });
/// ```
///
/// A value that is sent before the first poll replaces the first one:
///
/// ```
/// use tokio_stream::StreamExt;
/// use yovanelum::{block_on, watch};
/// use yovanelum_stream::wrappers::WatchStream;
///
/// let (state, rx) = watch::channel("starting");
/// let mut states = WatchStream::new(rx);
/// state.send("ready").unwrap();
/// assert_eq!(block_on(states.next()), Some("ready"));
/// ```
pub struct WatchStream<T> {
    inner: Polled<Receiver<T>>,
    // Whether the next item is the value as it is, seen or unseen.
    is_first: bool,
}

impl<T: 'static + Clone + Send + Sync> WatchStream<T> {
    /// Creates a stream whose first item is the value at the first poll.
    ///
    /// # Examples
    ///
    /// ```
    /// use tokio_stream::StreamExt;
    /// use yovanelum::{block_on, watch};
    /// use yovanelum_stream::wrappers::WatchStream;
    ///
    /// let (_config, rx) = watch::channel("log = info");
    /// let mut configs = WatchStream::new(rx);
    /// assert_eq!(block_on(configs.next()), Some("log = info"));
    /// ```
    #[track_caller]
    pub fn new(rx: Receiver<T>) -> Self {
        WatchStream {
            inner: Polled::new(rx),
            is_first: true,
        }
    }

    /// Creates a stream whose first item is the first value that the receiver has not seen.
    ///
    /// As in versions of tokio-stream after 0.1.9, this is [`new`](WatchStream::new) without the
    /// value that is there already.
    ///
    /// # Examples
    ///
    /// ```
    /// use tokio_stream::StreamExt;
    /// use yovanelum::{block_on, watch};
    /// use yovanelum_stream::wrappers::WatchStream;
    ///
    /// let (config, rx) = watch::channel("log = info");
    /// let mut changes = WatchStream::from_changes(rx);
    /// config.send("log = debug").unwrap();
    /// assert_eq!(block_on(changes.next()), Some("log = debug"));
    /// ```
    #[track_caller]
    pub fn from_changes(rx: Receiver<T>) -> Self {
        WatchStream {
            inner: Polled::new(rx),
            is_first: false,
        }
    }
}

impl<T: 'static + Clone + Send + Sync> Stream for WatchStream<T> {
    type Item = T;

    fn poll_next(mut self: Pin<&mut Self>, cx: &mut Context<'_>) -> Poll<Option<T>> {
        if !self.is_first && ready!(self.inner.poll_changed(cx)).is_err() {
            return Poll::Ready(None);
        }
        self.is_first = false;
        let value = self.inner.borrow_and_update().clone();
        Poll::Ready(Some(value))
    }
}

impl<T> fmt::Debug for WatchStream<T> {
    fn fmt(&self, f: &mut fmt::Formatter<'_>) -> fmt::Result {
        f.debug_struct("WatchStream").finish()
    }
}

impl<T: 'static + Clone + Send + Sync> From<Receiver<T>> for WatchStream<T> {
    #[track_caller]
    fn from(recv: Receiver<T>) -> Self {
        Self::new(recv)
    }
}
