//! Replies as the results and errors of tokio's methods.
// From crates/rw_watch/src/results.rt, with its contracts as comments. //+
//~ ghost use Rattle.std.specs.Prelude.{◌≡◌};
//~ ghost use Rattle.rw_watch.specs.Results.{borrowed, changed, count, done, dropped, has_changed, is_closed};
//~ ghost use Rattle.rw_watch.specs.Results.{made, modified, recv_error_of, refusal_of, replaced, sent};

use crate::source::rw_watch::calls::WReply;
use crate::source::rw_handles::{HandleFault, Refusal, SendError};
//~ use thiserror::Error;

/// Why a call for changes failed.
#[derive(Clone, Copy, Debug, PartialEq, Eq/*~, Error~*/)]
pub enum RecvError {
    /// No sender is alive.
//~     #[error("channel closed")]
    Closed,
    /// The call was refused, the call would wait, or the reply isn't to a call for changes.
//~     #[error("{0}")]
    Refused(Refusal),
}

impl<V: Copy> WReply<V> {
    /// The result of `Send`: `Ok` where the value was stored, or the value itself where there are no receivers.
    pub fn sent(self) -> Result<(), SendError<V>>
//~         ensures { result ≡ sent self }
    {
        match self {
            WReply::Stored => Ok(()),
            WReply::NoReceivers(value) => Err(SendError::NoReceivers(value)),
            _ => Err(SendError::Refused(self.refusal())),
        }
    }

    /// The result of `SendReplace`: the previous value.
    pub fn replaced(self) -> Result<V, Refusal>
//~         ensures { result ≡ replaced self }
    {
        match self {
            WReply::Old(value) => Ok(value),
            _ => Err(self.refusal()),
        }
    }

    /// The result of `Modify`: whether the receivers were notified.
    pub fn modified(self) -> Result<bool, Refusal>
//~         ensures { result ≡ modified self }
    {
        match self {
            WReply::Told(told) => Ok(told),
            _ => Err(self.refusal()),
        }
    }

    /// The result of `Borrow` and `Update`: the value.
    pub fn borrowed(self) -> Result<V, Refusal>
//~         ensures { result ≡ borrowed self }
    {
        match self {
            WReply::Value(value) => Ok(value),
            _ => Err(self.refusal()),
        }
    }

    /// The result of `HasChanged`: whether the receiver has not seen the value.
    pub fn has_changed(self) -> Result<bool, RecvError>
//~         ensures { result ≡ has_changed self }
    {
        match self {
            WReply::Flag(unseen) => Ok(unseen),
            _ => Err(self.recv_error()),
        }
    }

    /// The result of `Changed`: `Ok` where there was a value that the receiver had not seen.
    pub fn changed(self) -> Result<(), RecvError>
//~         ensures { result ≡ changed self }
    {
        self.done().map_err(|_| self.recv_error())
    }

    /// The result of `MarkChanged`, `MarkUnchanged` and `AwaitClosed`: `Ok` where the call was done.
    pub fn done(self) -> Result<(), Refusal>
//~         ensures { result ≡ done self }
    {
        match self {
            WReply::Done => Ok(()),
            _ => Err(self.refusal()),
        }
    }

    /// The result of `IsClosed`: whether no receiver is alive.
    pub fn is_closed(self) -> Result<bool, Refusal>
//~         ensures { result ≡ is_closed self }
    {
        match self {
            WReply::Flag(closed) => Ok(closed),
            _ => Err(self.refusal()),
        }
    }

    /// The result of `Subscribe`, `CloneSender` and `CloneReceiver`: the number of the new handle.
    pub fn made(self) -> Result<u32, Refusal>
//~         ensures { result ≡ made self }
    {
        match self {
            WReply::New(handle) => Ok(handle),
            _ => Err(self.refusal()),
        }
    }

    /// The result of `DropHandle`: `Ok` where the handle was dropped.
    pub fn dropped(self) -> Result<(), Refusal>
//~         ensures { result ≡ dropped self }
    {
        match self {
            WReply::Dropped => Ok(()),
            _ => Err(self.refusal()),
        }
    }

    /// The result of `ReceiverCount`: the number of live receivers.
    pub fn count(self) -> Result<u64, Refusal>
//~         ensures { result ≡ count self }
    {
        match self {
            WReply::Count(count) => Ok(count),
            _ => Err(self.refusal()),
        }
    }

    /// Returns why a call for changes failed.
    fn recv_error(self) -> RecvError
//~         ensures { result ≡ recv_error_of self }
    {
        match self {
            WReply::Closed => RecvError::Closed,
            _ => RecvError::Refused(self.refusal()),
        }
    }

    /// Returns why the reply has no result for its call, where that call has no error of its own for it.
    fn refusal(self) -> Refusal
//~         ensures { result ≡ refusal_of self }
    {
        match self {
            WReply::Unknown => Refusal::Handle(HandleFault::Unknown),
            WReply::Gone => Refusal::Handle(HandleFault::Gone),
            WReply::WrongKind => Refusal::Handle(HandleFault::WrongKind),
            WReply::TooManyHandles => Refusal::TooManyHandles,
            WReply::Waits => Refusal::Waits,
            _ => Refusal::OtherCall,
        }
    }
}
impl core::fmt::Display for RecvError { //+
    fn fmt(&self, f: &mut core::fmt::Formatter<'_>) -> core::fmt::Result { //+
        match self { //+
            RecvError::Closed => write!(f, "channel closed"), //+
            RecvError::Refused(f0, ..) => write!(f, "{f0}"), //+
        } //+
    } //+
} //+
impl core::error::Error for RecvError {} //+
