//! The calls of a watch channel, their replies, and the patches of their steps.
// From crates/rw_watch/src/calls.rt, with its contracts as comments. //+
//~ ghost use Rattle.std.specs.Prelude.{◌≡◌};
//~ ghost use Rattle.rw_watch.specs.Channel.{handle_of, makes, fault_reply, wanted_kind, with_handle};
//~ ghost use Rattle.rw_watch.specs.Shown.{patch_of_drop, patch_of_mark, refuses};

use crate::source::rw_handles::{HandleFault, Kind};

/// A call. The number is that of the handle that it is made with.
#[derive(Clone, Copy, Debug, PartialEq)]
pub enum WCall<V> {
    /// Writes a value and notifies the receivers, if there are any.
    Send(u32, V),
    /// Writes a value, notifies the receivers, and returns the previous value.
    SendReplace(u32, V),
    /// Writes a value, and notifies the receivers if `told`. Fields are stored in the order of the source: with the flag first,
    /// a call has 16 bytes for `u64`; with the flag last it would have 24.
    Modify { told: bool, handle: u32, value: V },
    /// Makes a receiver that has seen the value.
    Subscribe(u32),
    /// Makes another sender.
    CloneSender(u32),
    /// Makes a receiver that has seen what its source has.
    CloneReceiver(u32),
    /// Reads the value.
    Borrow(u32),
    /// Reads the value, and marks it as seen.
    Update(u32),
    /// Checks whether a receiver has not seen the value.
    HasChanged(u32),
    /// Waits for a value that the receiver has not seen, and marks it as seen.
    Changed(u32),
    /// Marks the value as not seen.
    MarkChanged(u32),
    /// Marks the value as seen.
    MarkUnchanged(u32),
    /// Drops a handle of either kind.
    DropHandle(u32),
    /// Reads how many receivers are alive, with a sender.
    ReceiverCount(u32),
    /// Checks whether no receiver is alive, with a sender.
    IsClosed(u32),
    /// Waits until no receiver is alive.
    AwaitClosed(u32),
}

/// A reply to a call.
#[derive(Clone, Copy, Debug, PartialEq)]
pub enum WReply<V> {
    /// The value was sent.
    Stored,
    /// No receiver is alive. The value is returned.
    NoReceivers(V),
    /// The previous value.
    Old(V),
    /// Whether the receivers were notified of the value.
    Told(bool),
    /// A handle of this number was made.
    New(u32),
    /// The value.
    Value(V),
    /// Yes or no.
    Flag(bool),
    /// No sender is alive.
    Closed,
    /// The call would wait.
    Waits,
    /// The call was done, and has no other result.
    Done,
    /// The number of live receivers.
    Count(u64),
    /// The handle was dropped.
    Dropped,
    /// No handle of this number was made.
    Unknown,
    /// The handle was dropped before.
    Gone,
    /// The handle is of the other kind.
    WrongKind,
    /// The channel has made all the handles that it may make.
    TooManyHandles,
}

/// What undoing a step needs besides its call.
#[derive(Clone, Copy, Debug, PartialEq)]
pub enum WPatch<V> {
    /// Nothing changed.
    Same,
    /// A value was written, with the receivers notified or not. This was the value before it.
    Wrote { told: bool, before: V },
    /// A handle was made.
    Made,
    /// The receiver had this mark.
    Marked(u64),
    /// The receiver had no mark.
    Unmarked,
    /// The dropped handle was of this kind, and had this mark.
    Left(Kind, u64),
    /// The dropped handle was of this kind, and had no mark.
    LeftUnmarked(Kind),
}

impl<V: Copy> WCall<V> {
    /// Returns the number of the handle that the call is made with.
    #[inline(always)] //+
    pub fn handle(&self) -> u32
//~         ensures { result ≡ handle_of self.now }
    {
        match self {
            WCall::Send(handle, _)
            | WCall::SendReplace(handle, _)
            | WCall::Modify { handle, .. }
            | WCall::Subscribe(handle)
            | WCall::CloneSender(handle)
            | WCall::CloneReceiver(handle)
            | WCall::Borrow(handle)
            | WCall::Update(handle)
            | WCall::HasChanged(handle)
            | WCall::Changed(handle)
            | WCall::MarkChanged(handle)
            | WCall::MarkUnchanged(handle)
            | WCall::DropHandle(handle)
            | WCall::ReceiverCount(handle)
            | WCall::IsClosed(handle)
            | WCall::AwaitClosed(handle) => *handle,
        }
    }

    /// Returns the same call, made with another handle.
    pub fn with_handle(self, handle: u32) -> WCall<V>
//~         ensures { result ≡ with_handle self handle }
    {
        match self {
            WCall::Send(_, value) => WCall::Send(handle, value),
            WCall::SendReplace(_, value) => WCall::SendReplace(handle, value),
            WCall::Modify { told, value, .. } => WCall::Modify {
                told,
                handle,
                value,
            },
            WCall::Subscribe(_) => WCall::Subscribe(handle),
            WCall::CloneSender(_) => WCall::CloneSender(handle),
            WCall::CloneReceiver(_) => WCall::CloneReceiver(handle),
            WCall::Borrow(_) => WCall::Borrow(handle),
            WCall::Update(_) => WCall::Update(handle),
            WCall::HasChanged(_) => WCall::HasChanged(handle),
            WCall::Changed(_) => WCall::Changed(handle),
            WCall::MarkChanged(_) => WCall::MarkChanged(handle),
            WCall::MarkUnchanged(_) => WCall::MarkUnchanged(handle),
            WCall::DropHandle(_) => WCall::DropHandle(handle),
            WCall::ReceiverCount(_) => WCall::ReceiverCount(handle),
            WCall::IsClosed(_) => WCall::IsClosed(handle),
            WCall::AwaitClosed(_) => WCall::AwaitClosed(handle),
        }
    }

    /// Returns the kind that the handle must be of, or `None` if either kind will do.
    #[inline(always)] //+
    pub(crate) fn wanted(&self) -> Option<Kind>
//~         ensures { result ≡ wanted_kind self.now }
    {
        match self {
            WCall::Send(_, _)
            | WCall::SendReplace(_, _)
            | WCall::Modify { .. }
            | WCall::Subscribe(_)
            | WCall::CloneSender(_)
            | WCall::ReceiverCount(_)
            | WCall::IsClosed(_)
            | WCall::AwaitClosed(_) => Some(Kind::Sender),
            WCall::CloneReceiver(_)
            | WCall::Update(_)
            | WCall::HasChanged(_)
            | WCall::Changed(_)
            | WCall::MarkChanged(_)
            | WCall::MarkUnchanged(_) => Some(Kind::Receiver),
            WCall::Borrow(_) | WCall::DropHandle(_) => None,
        }
    }

    /// Whether the call makes a handle, unless it is refused.
    #[inline(always)] //+
    pub fn makes(&self) -> bool
//~         ensures { result ≡ makes self.now }
    {
        matches!(
            self,
            WCall::Subscribe(_) | WCall::CloneSender(_) | WCall::CloneReceiver(_)
        )
    }
}

impl<V: Copy> WReply<V> {
    /// Whether the reply refuses: the call has changed nothing.
    pub fn refuses(&self) -> bool
//~         ensures { result ≡ refuses self.now }
    {
        matches!(
            self,
            WReply::NoReceivers(_)
                | WReply::Closed
                | WReply::Waits
                | WReply::Unknown
                | WReply::Gone
                | WReply::WrongKind
                | WReply::TooManyHandles
        )
    }

    /// Returns the reply for a handle that can't be used.
    #[inline(always)] //+
    pub(crate) fn refused(fault: HandleFault) -> WReply<V>
//~         ensures { result ≡ fault_reply fault }
    {
        match fault {
            HandleFault::Unknown => WReply::Unknown,
            HandleFault::Gone => WReply::Gone,
            HandleFault::WrongKind => WReply::WrongKind,
        }
    }
}

impl<V: Copy> WPatch<V> {
    /// Returns the patch of a receiver's new mark, given the one before it.
    #[inline(always)] //+
    pub(crate) fn of_mark(before: Option<u64>) -> WPatch<V>
//~         ensures { result ≡ patch_of_mark before }
    {
        match before {
            None => WPatch::Unmarked,
            Some(mark) => WPatch::Marked(mark),
        }
    }

    /// Returns the patch of a drop, given the handle's kind and mark.
    #[inline(always)] //+
    pub(crate) fn of_drop(kind: Kind, mark: Option<u64>) -> WPatch<V>
//~         ensures { result ≡ patch_of_drop kind mark }
    {
        match mark {
            None => WPatch::LeftUnmarked(kind),
            Some(mark) => WPatch::Left(kind, mark),
        }
    }
}
