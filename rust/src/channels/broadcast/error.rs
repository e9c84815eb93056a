//! Errors of the broadcast channel.

use crate::channels::recorder::error_is_written;
use std::error::Error;
use std::fmt;

/// Error returned by [`Sender::send`](super::Sender::send) when the channel has no receiver.
///
/// It contains the value that was not sent. As in tokio, a send fails for no other reason.
///
/// # Examples
///
/// ```
/// use yovanelum::broadcast::{self, error::SendError};
///
/// let (bus, listener) = broadcast::channel(4);
/// drop(listener);
/// let SendError(event) = bus.send("user created").unwrap_err();
/// assert_eq!(event, "user created");
/// ```
pub struct SendError<T>(pub T);

impl<T: fmt::Debug> fmt::Debug for SendError<T> {
    fn fmt(&self, f: &mut fmt::Formatter<'_>) -> fmt::Result {
        error_is_written(|| "SendError".to_string());
        f.debug_tuple("SendError").field(&self.0).finish()
    }
}

impl<T> fmt::Display for SendError<T> {
    fn fmt(&self, f: &mut fmt::Formatter<'_>) -> fmt::Result {
        error_is_written(|| "SendError".to_string());
        write!(f, "channel closed")
    }
}

impl<T: fmt::Debug> Error for SendError<T> {}

/// Error returned by [`Receiver::recv`](super::Receiver::recv) and
/// [`Receiver::blocking_recv`](super::Receiver::blocking_recv).
///
/// # Examples
///
/// A listener that counts the events that it lost, until the channel is closed:
///
/// ```
/// use yovanelum::broadcast::{self, error::RecvError};
///
/// let (bus, mut listener) = broadcast::channel(2);
/// for event in 1..=5 {
///     bus.send(event).unwrap();
/// }
/// drop(bus);
/// let (mut received, mut lost) = (vec![], 0);
/// loop {
///     match listener.blocking_recv() {
///         Ok(event) => received.push(event),
///         Err(RecvError::Lagged(n)) => lost += n,
///         Err(RecvError::Closed) => break,
///     }
/// }
/// assert_eq!(received, [4, 5]);
/// assert_eq!(lost, 3);
/// ```
#[derive(PartialEq, Eq, Clone)]
pub enum RecvError {
    /// Every sender has been dropped, and everything that was sent has been received. As in tokio,
    /// no value will ever be sent again.
    Closed,
    /// The receiver lagged, and this many values were overwritten before it received them. As in
    /// tokio, the next receive returns the oldest value that is still retained.
    Lagged(u64),
}

impl RecvError {
    /// What `{:?}` writes.
    fn text(&self) -> String {
        match self {
            RecvError::Closed => "Closed".to_string(),
            RecvError::Lagged(amt) => format!("Lagged({amt})"),
        }
    }
}

impl fmt::Debug for RecvError {
    fn fmt(&self, f: &mut fmt::Formatter<'_>) -> fmt::Result {
        error_is_written(|| self.text());
        match self {
            RecvError::Closed => f.write_str("Closed"),
            RecvError::Lagged(amt) => f.debug_tuple("Lagged").field(amt).finish(),
        }
    }
}

impl fmt::Display for RecvError {
    fn fmt(&self, f: &mut fmt::Formatter<'_>) -> fmt::Result {
        error_is_written(|| self.text());
        match self {
            RecvError::Closed => write!(f, "channel closed"),
            RecvError::Lagged(amt) => write!(f, "channel lagged by {amt}"),
        }
    }
}

impl Error for RecvError {}

/// Error returned by [`Receiver::try_recv`](super::Receiver::try_recv).
///
/// # Examples
///
/// ```
/// use yovanelum::broadcast::{self, error::TryRecvError};
///
/// let (prices, mut chart) = broadcast::channel(1);
/// assert_eq!(chart.try_recv(), Err(TryRecvError::Empty));
/// prices.send(101).unwrap();
/// prices.send(102).unwrap();
/// drop(prices);
/// assert_eq!(chart.try_recv(), Err(TryRecvError::Lagged(1)));
/// assert_eq!(chart.try_recv(), Ok(102));
/// assert_eq!(chart.try_recv(), Err(TryRecvError::Closed));
/// ```
#[derive(PartialEq, Eq, Clone)]
pub enum TryRecvError {
    /// There is no value to receive now. As in tokio, a sender is still alive and may send one.
    Empty,
    /// Every sender has been dropped, and everything that was sent has been received. As in tokio,
    /// no value will ever be sent again.
    Closed,
    /// The receiver lagged, and this many values were overwritten before it received them. As in
    /// tokio, the next receive returns the oldest value that is still retained.
    Lagged(u64),
}

impl TryRecvError {
    /// What `{:?}` writes.
    fn text(&self) -> String {
        match self {
            TryRecvError::Empty => "Empty".to_string(),
            TryRecvError::Closed => "Closed".to_string(),
            TryRecvError::Lagged(amt) => format!("Lagged({amt})"),
        }
    }
}

impl fmt::Debug for TryRecvError {
    fn fmt(&self, f: &mut fmt::Formatter<'_>) -> fmt::Result {
        error_is_written(|| self.text());
        match self {
            TryRecvError::Empty => f.write_str("Empty"),
            TryRecvError::Closed => f.write_str("Closed"),
            TryRecvError::Lagged(amt) => f.debug_tuple("Lagged").field(amt).finish(),
        }
    }
}

impl fmt::Display for TryRecvError {
    fn fmt(&self, f: &mut fmt::Formatter<'_>) -> fmt::Result {
        error_is_written(|| self.text());
        match self {
            TryRecvError::Empty => write!(f, "channel empty"),
            TryRecvError::Closed => write!(f, "channel closed"),
            TryRecvError::Lagged(amt) => write!(f, "channel lagged by {amt}"),
        }
    }
}

impl Error for TryRecvError {}
