//! Streams of the values of a broadcast.

use futures_core::Stream;
use std::error::Error;
use std::fmt;
use std::pin::Pin;
use std::task::{Context, Poll};
use yovanelum::Polled;
use yovanelum::broadcast::{Receiver, error::RecvError};

/// A wrapper around [`Receiver`] that implements [`Stream`].
///
/// Its items are what [`recv`](Receiver::recv) returns. It ends when the channel is closed and
/// everything that was sent has been received. As in tokio-stream, a lag is an item, and the stream
/// goes on after it.
///
/// # Examples
///
/// ```
/// use tokio_stream::StreamExt;
/// use yovanelum::{block_on, broadcast};
/// use yovanelum_stream::wrappers::{BroadcastStream, errors::BroadcastStreamRecvError};
///
/// let (prices, chart) = broadcast::channel(2);
/// let mut chart = BroadcastStream::new(chart);
/// for price in [101, 102, 103] {
///     prices.send(price).unwrap();
/// }
/// drop(prices);
/// block_on(async {
///     assert_eq!(chart.next().await, Some(Err(BroadcastStreamRecvError::Lagged(1))));
///     assert_eq!(chart.next().await, Some(Ok(102)));
///     assert_eq!(chart.next().await, Some(Ok(103)));
///     assert_eq!(chart.next().await, None);
/// });
/// ```
pub struct BroadcastStream<T> {
    inner: Polled<Receiver<T>>,
}

/// Error of an item of a [`BroadcastStream`].
///
/// # Examples
///
/// ```
/// use yovanelum_stream::wrappers::errors::BroadcastStreamRecvError;
///
/// let error = BroadcastStreamRecvError::Lagged(3);
/// assert_eq!(error.to_string(), "channel lagged by 3");
/// ```
#[derive(Debug, PartialEq, Eq, Clone)]
pub enum BroadcastStreamRecvError {
    /// The receiver lagged, and this many values were overwritten before it received them. As in
    /// tokio-stream, the next item is the oldest value that is still retained.
    Lagged(u64),
}

impl fmt::Display for BroadcastStreamRecvError {
    fn fmt(&self, f: &mut fmt::Formatter<'_>) -> fmt::Result {
        match self {
            BroadcastStreamRecvError::Lagged(amt) => write!(f, "channel lagged by {amt}"),
        }
    }
}

impl Error for BroadcastStreamRecvError {}

impl<T: 'static + Clone + Send> BroadcastStream<T> {
    /// Creates a stream of what the receiver has yet to receive and of what is sent from now on.
    ///
    /// # Examples
    ///
    /// ```
    /// use tokio_stream::StreamExt;
    /// use yovanelum::{block_on, broadcast};
    /// use yovanelum_stream::wrappers::BroadcastStream;
    ///
    /// let (bus, listener) = broadcast::channel(4);
    /// bus.send("user created").unwrap();
    /// let mut events = BroadcastStream::new(listener);
    /// assert_eq!(block_on(events.next()), Some(Ok("user created")));
    /// ```
    #[track_caller]
    pub fn new(rx: Receiver<T>) -> Self {
        BroadcastStream {
            inner: Polled::new(rx),
        }
    }
}

impl<T: 'static + Clone + Send> Stream for BroadcastStream<T> {
    type Item = Result<T, BroadcastStreamRecvError>;

    fn poll_next(mut self: Pin<&mut Self>, cx: &mut Context<'_>) -> Poll<Option<Self::Item>> {
        self.inner.poll_recv(cx).map(|received| match received {
            Ok(value) => Some(Ok(value)),
            Err(RecvError::Lagged(n)) => Some(Err(BroadcastStreamRecvError::Lagged(n))),
            Err(RecvError::Closed) => None,
        })
    }
}

impl<T> fmt::Debug for BroadcastStream<T> {
    fn fmt(&self, f: &mut fmt::Formatter<'_>) -> fmt::Result {
        f.debug_struct("BroadcastStream").finish()
    }
}

impl<T: 'static + Clone + Send> From<Receiver<T>> for BroadcastStream<T> {
    #[track_caller]
    fn from(recv: Receiver<T>) -> Self {
        Self::new(recv)
    }
}
