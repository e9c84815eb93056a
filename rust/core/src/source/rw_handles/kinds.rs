//! The types of handles: kinds, slots, and the results of a lookup.
// From crates/rw_handles/src/kinds.rt, with its contracts as comments. //+

//~ use thiserror::Error;

/// What a handle is for.
#[derive(Clone, Copy, Debug, PartialEq, Eq)]
pub enum Kind {
    Sender,
    Receiver,
    /// A sender that doesn't keep its channel open. It sends nothing, but can be upgraded to a sender while there is one.
    Weak,
}

/// What is under a handle's number: a live handle with its kind and value, or the spent number of a dropped one.
#[derive(Clone, Copy, Debug, PartialEq, Eq)]
pub enum Slot<X> {
    Live(Kind, X),
    Spent,
}

/// Why a handle can't be used for a call.
#[derive(Clone, Copy, Debug, PartialEq, Eq/*~, Error~*/)]
pub enum HandleFault {
    /// No handle with this number was made.
//~     #[error("unknown handle")]
    Unknown,
    /// The handle was dropped.
//~     #[error("handle is gone")]
    Gone,
    /// The handle is of another kind.
//~     #[error("wrong kind of handle")]
    WrongKind,
}

/// The result of a lookup: a fault, or a live handle of a wanted kind, with its value.
#[derive(Clone, Copy, Debug, PartialEq, Eq)]
pub enum Found<X> {
    Fault(HandleFault),
    Handle(Kind, X),
}
impl core::fmt::Display for HandleFault { //+
    fn fmt(&self, f: &mut core::fmt::Formatter<'_>) -> core::fmt::Result { //+
        match self { //+
            HandleFault::Unknown => write!(f, "unknown handle"), //+
            HandleFault::Gone => write!(f, "handle is gone"), //+
            HandleFault::WrongKind => write!(f, "wrong kind of handle"), //+
        } //+
    } //+
} //+
impl core::error::Error for HandleFault {} //+
