//! Replies as the results and errors of tokio's methods.
// From crates/rw_broadcast/src/results.rt, with its contracts as comments. //+
//~ ghost use Rattle.std.specs.Prelude.{◌≡◌};
//~ ghost use Rattle.rw_broadcast.specs.Results.{count, dropped, made, received, refusal_of, sent, upgraded};

use crate::source::rw_broadcast::calls::BReply;
use crate::source::rw_handles::{HandleFault, Refusal, SendError};
//~ use thiserror::Error;

/// Why a receive returned no value.
#[derive(Clone, Copy, Debug, PartialEq, Eq/*~, Error~*/)]
pub enum TryRecvError {
    /// There is no value yet. A sender is alive, so one may be sent.
//~     #[error("channel empty")]
    Empty,
    /// There is no value, and no sender is alive.
//~     #[error("channel closed")]
    Closed,
    /// This many values were evicted before the receiver had received them. The next receive returns the oldest retained one.
//~     #[error("channel lagged by {0}")]
    Lagged(u64),
    /// The call was refused, or the reply isn't to a receive.
//~     #[error("{0}")]
    Refused(Refusal),
}

impl<V: Copy> BReply<V> {
    /// The result of `Send`: how many receivers the value was sent to, or the value itself where there are none.
    pub fn sent(self) -> Result<u64, SendError<V>>
//~         ensures { result ≡ sent self }
    {
        match self {
            BReply::Sent(receivers) => Ok(receivers),
            BReply::NoReceivers(value) => Err(SendError::NoReceivers(value)),
            _ => Err(SendError::Refused(self.refusal())),
        }
    }

    /// The result of `TryRecv` and `Recv`: the value, or why there is none. For a `Recv` that would wait, it is `Empty`.
    pub fn received(self) -> Result<V, TryRecvError>
//~         ensures { result ≡ received self }
    {
        match self {
            BReply::Value(value) => Ok(value),
            BReply::Lagged(skipped) => Err(TryRecvError::Lagged(skipped)),
            BReply::Empty | BReply::Waits => Err(TryRecvError::Empty),
            BReply::Closed => Err(TryRecvError::Closed),
            _ => Err(TryRecvError::Refused(self.refusal())),
        }
    }

    /// The result of a call that always makes a handle, unless it is refused: the number of the new handle.
    pub fn made(self) -> Result<u32, Refusal>
//~         ensures { result ≡ made self }
    {
        match self {
            BReply::New(handle) => Ok(handle),
            _ => Err(self.refusal()),
        }
    }

    /// The result of `Upgrade`: the number of the new sender, or `None` where no sender is alive.
    pub fn upgraded(self) -> Result<Option<u32>, Refusal>
//~         ensures { result ≡ upgraded self }
    {
        match self {
            BReply::New(handle) => Ok(Some(handle)),
            BReply::NoSender => Ok(None),
            _ => Err(self.refusal()),
        }
    }

    /// The result of `DropHandle`: `Ok` where the handle was dropped.
    pub fn dropped(self) -> Result<(), Refusal>
//~         ensures { result ≡ dropped self }
    {
        match self {
            BReply::Dropped => Ok(()),
            _ => Err(self.refusal()),
        }
    }

    /// The result of `SenderLen`, `ReceiverCount` and `ReceiverLen`: the number.
    pub fn count(self) -> Result<u64, Refusal>
//~         ensures { result ≡ count self }
    {
        match self {
            BReply::Count(count) => Ok(count),
            _ => Err(self.refusal()),
        }
    }

    /// Returns why the reply has no result for its call, where that call has no error of its own for it.
    fn refusal(self) -> Refusal
//~         ensures { result ≡ refusal_of self }
    {
        match self {
            BReply::Unknown => Refusal::Handle(HandleFault::Unknown),
            BReply::Gone => Refusal::Handle(HandleFault::Gone),
            BReply::WrongKind => Refusal::Handle(HandleFault::WrongKind),
            BReply::TooManyHandles => Refusal::TooManyHandles,
            BReply::Waits => Refusal::Waits,
            _ => Refusal::OtherCall,
        }
    }
}
impl core::fmt::Display for TryRecvError { //+
    fn fmt(&self, f: &mut core::fmt::Formatter<'_>) -> core::fmt::Result { //+
        match self { //+
            TryRecvError::Empty => write!(f, "channel empty"), //+
            TryRecvError::Closed => write!(f, "channel closed"), //+
            TryRecvError::Lagged(f0, ..) => write!(f, "channel lagged by {f0}"), //+
            TryRecvError::Refused(f0, ..) => write!(f, "{f0}"), //+
        } //+
    } //+
} //+
impl core::error::Error for TryRecvError {} //+
