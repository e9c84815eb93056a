//! Errors of the watch channel.

use crate::channels::recorder::error_is_written;
use std::error::Error;
use std::fmt;

/// Error returned by [`Sender::send`](super::Sender::send) when the channel has no receiver.
///
/// It contains the value that was not sent. As in tokio, the value that the channel holds is then
/// the previous one.
///
/// `{:?}` leaves the value out, which therefore need not be `Debug`. So does tokio 1.53; tokio 1.24
/// prints the value.
///
/// # Examples
///
/// ```
/// use yovanelum::watch::{self, error::SendError};
///
/// let (config, rx) = watch::channel("log = info");
/// drop(rx);
/// assert_eq!(config.send("log = debug"), Err(SendError("log = debug")));
/// assert_eq!(*config.borrow(), "log = info");
/// ```
#[derive(PartialEq, Eq, Clone, Copy)]
pub struct SendError<T>(pub T);

impl<T> fmt::Debug for SendError<T> {
    fn fmt(&self, f: &mut fmt::Formatter<'_>) -> fmt::Result {
        error_is_written(|| "SendError { .. }".to_string());
        f.debug_struct("SendError").finish_non_exhaustive()
    }
}

impl<T> fmt::Display for SendError<T> {
    fn fmt(&self, f: &mut fmt::Formatter<'_>) -> fmt::Result {
        error_is_written(|| "SendError { .. }".to_string());
        write!(f, "channel closed")
    }
}

impl<T> Error for SendError<T> {}

/// Error returned by the methods of [`Receiver`](super::Receiver) when every sender has been
/// dropped.
///
/// As in tokio, it carries nothing: the only reason is that the channel is closed.
///
/// # Examples
///
/// ```
/// use yovanelum::watch::{self, error::RecvError};
///
/// /// The version of a configuration, if it has changed.
/// fn reloaded(rx: &mut watch::Receiver<u32>) -> Result<Option<u32>, RecvError> {
///     Ok(rx.has_changed()?.then(|| *rx.borrow_and_update()))
/// }
///
/// let (config, mut rx) = watch::channel(1);
/// config.send(2).unwrap();
/// assert_eq!(reloaded(&mut rx).unwrap(), Some(2));
/// assert_eq!(reloaded(&mut rx).unwrap(), None);
/// drop(config);
/// assert_eq!(reloaded(&mut rx).unwrap_err().to_string(), "channel closed");
/// ```
#[derive(Clone)]
pub struct RecvError(pub(crate) ());

impl fmt::Debug for RecvError {
    fn fmt(&self, f: &mut fmt::Formatter<'_>) -> fmt::Result {
        error_is_written(|| "RecvError(())".to_string());
        f.debug_tuple("RecvError").field(&self.0).finish()
    }
}

impl fmt::Display for RecvError {
    fn fmt(&self, f: &mut fmt::Formatter<'_>) -> fmt::Result {
        error_is_written(|| "RecvError(())".to_string());
        write!(f, "channel closed")
    }
}

impl Error for RecvError {}
