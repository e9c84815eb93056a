//! What each reply of the core means to the caller: senders and receivers make the results of
//! tokio's methods of it.

use crate::channels::broadcast::error::{RecvError, TryRecvError};
use crate::channels::watch;
use std::task::Poll;
use yovanelum_record::reply::Reply;

/// Each of these methods is for the calls that have no other replies. That is proved of the core.
pub(crate) trait ReplyResult: Sized {
    /// Panics if the call was not made. Nothing has changed then.
    fn expect_made(self) -> Self;

    /// Returns the number of the handle that the call has created.
    fn new_handle(self) -> u32;

    /// Returns the number of the sender that the upgrade of a weak sender has created, or `None` if
    /// no sender is alive.
    fn upgraded(self) -> Option<u32>;

    fn count(self) -> usize;

    /// Returns the number of the value that a receive has received.
    fn received(self) -> Poll<Result<u64, RecvError>>;

    /// Returns why a receive which doesn't wait has received no value.
    fn not_received(self) -> TryRecvError;

    /// Returns whether the receiver of a watch has yet to see its value.
    fn has_changed(self) -> Result<bool, watch::error::RecvError>;

    /// Returns whether the wait for a new value of a watch is over.
    fn changed(self) -> Poll<Result<(), watch::error::RecvError>>;

    /// Returns whether the wait until no receiver is alive is over.
    fn closed(self) -> Poll<()>;

    /// Panics, since the call has no such reply.
    fn unexpected(self) -> !;
}

impl ReplyResult for Reply {
    #[cfg_attr(debug_assertions, inline(never))]
    #[cfg_attr(not(debug_assertions), inline)]
    fn expect_made(self) -> Self {
        match self {
            Reply::JournalFull | Reply::NoMemory => panic!("yovanelum: no memory for a call"),
            // A channel asks a further machine instead of a full one, and no handle of this crate
            // makes one of the other calls.
            Reply::TooManyHandles
            | Reply::Unknown
            | Reply::Gone
            | Reply::WrongKind
            | Reply::NoChannel => self.unexpected(),
            reply => reply,
        }
    }

    #[inline]
    fn new_handle(self) -> u32 {
        match self {
            Reply::New(handle) => handle as u32,
            reply => reply.unexpected(),
        }
    }

    fn upgraded(self) -> Option<u32> {
        match self {
            Reply::New(handle) => Some(handle as u32),
            Reply::NoSender => None,
            reply => reply.unexpected(),
        }
    }

    fn count(self) -> usize {
        match self {
            Reply::Count(count) => count as usize,
            reply => reply.unexpected(),
        }
    }

    #[cfg_attr(debug_assertions, inline(never))]
    #[cfg_attr(not(debug_assertions), inline)]
    fn received(self) -> Poll<Result<u64, RecvError>> {
        match self {
            Reply::Value(number) => Poll::Ready(Ok(number)),
            Reply::Lagged(count) => Poll::Ready(Err(RecvError::Lagged(count))),
            Reply::Closed => Poll::Ready(Err(RecvError::Closed)),
            Reply::Waits => Poll::Pending,
            reply => reply.unexpected(),
        }
    }

    fn not_received(self) -> TryRecvError {
        match self {
            Reply::Lagged(count) => TryRecvError::Lagged(count),
            Reply::Closed => TryRecvError::Closed,
            Reply::Empty => TryRecvError::Empty,
            reply => reply.unexpected(),
        }
    }

    fn has_changed(self) -> Result<bool, watch::error::RecvError> {
        match self {
            Reply::Flag(has_changed) => Ok(has_changed != 0),
            Reply::Closed => Err(watch::error::RecvError(())),
            reply => reply.unexpected(),
        }
    }

    fn changed(self) -> Poll<Result<(), watch::error::RecvError>> {
        match self {
            Reply::Done => Poll::Ready(Ok(())),
            Reply::Closed => Poll::Ready(Err(watch::error::RecvError(()))),
            Reply::Waits => Poll::Pending,
            reply => reply.unexpected(),
        }
    }

    fn closed(self) -> Poll<()> {
        match self {
            Reply::Done => Poll::Ready(()),
            Reply::Waits => Poll::Pending,
            reply => reply.unexpected(),
        }
    }

    #[cold]
    fn unexpected(self) -> ! {
        unreachable!("{self:?}")
    }
}
