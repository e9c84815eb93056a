//! Why a reply has no result for its call, in either kind of channel.
// From crates/rw_handles/src/refusals.rt, with its contracts as comments. //+

use crate::source::rw_handles::kinds::HandleFault;
//~ use thiserror::Error;

/// Why a reply has no result for its call, where tokio has no such error.
#[derive(Clone, Copy, Debug, PartialEq, Eq/*~, Error~*/)]
pub enum Refusal {
    /// The call's handle can't be used for it.
//~     #[error("{0}")]
    Handle(HandleFault),
    /// The channel has made all the handles that it may make.
//~     #[error("too many handles")]
    TooManyHandles,
    /// The call would wait.
//~     #[error("would wait")]
    Waits,
    /// The reply is to another call.
//~     #[error("reply of another call")]
    OtherCall,
}

/// Why a value wasn't sent, in either kind of channel.
#[derive(Clone, Copy, Debug, PartialEq, Eq/*~, Error~*/)]
pub enum SendError<V> {
    /// No receiver is alive. The value is returned.
//~     #[error("no receivers")]
    NoReceivers(V),
    /// The call was refused, or the reply isn't to a send.
//~     #[error("{0}")]
    Refused(Refusal),
}
impl core::fmt::Display for Refusal { //+
    fn fmt(&self, f: &mut core::fmt::Formatter<'_>) -> core::fmt::Result { //+
        match self { //+
            Refusal::Handle(f0, ..) => write!(f, "{f0}"), //+
            Refusal::TooManyHandles => write!(f, "too many handles"), //+
            Refusal::Waits => write!(f, "would wait"), //+
            Refusal::OtherCall => write!(f, "reply of another call"), //+
        } //+
    } //+
} //+
impl core::error::Error for Refusal {} //+
impl<V> core::fmt::Display for SendError<V> { //+
    fn fmt(&self, f: &mut core::fmt::Formatter<'_>) -> core::fmt::Result { //+
        match self { //+
            SendError::NoReceivers(..) => write!(f, "no receivers"), //+
            SendError::Refused(f0, ..) => write!(f, "{f0}"), //+
        } //+
    } //+
} //+
impl<V: core::fmt::Debug> core::error::Error for SendError<V> {} //+
