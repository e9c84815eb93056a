//! The calls of a broadcast channel, their replies, and the patches of their steps.
// From crates/rw_broadcast/src/calls.rt, with its contracts as comments. //+
//~ ghost use Rattle.std.specs.Prelude.{◌≡◌};
//~ ghost use Rattle.rw_broadcast.specs.Channel.{handle_of, makes, fault_reply, wanted_kind, with_handle};
//~ ghost use Rattle.rw_broadcast.specs.Shown.{patch_of_send, refuses};

use crate::source::rw_handles::{HandleFault, Kind};

/// A call. The number is that of the handle that it is made with.
#[derive(Clone, Copy, Debug, PartialEq)]
pub enum BCall<V> {
    /// Sends a value to all live receivers.
    Send(u32, V),
    /// Makes a receiver that gets the values sent from now on.
    Subscribe(u32),
    /// Makes another sender.
    CloneSender(u32),
    /// Makes a receiver from another; it gets the values sent from now on.
    Resubscribe(u32),
    /// Receives a value, if there is one.
    TryRecv(u32),
    /// Receives a value, or waits for one where there is none yet.
    Recv(u32),
    /// Drops a handle of any kind.
    DropHandle(u32),
    /// Reads how many values are queued, with a sender.
    SenderLen(u32),
    /// Reads how many receivers are alive, with a sender.
    ReceiverCount(u32),
    /// Reads how many values a receiver has yet to receive.
    ReceiverLen(u32),
    /// Makes a weak sender, which doesn't keep the channel open.
    Downgrade(u32),
    /// Upgrades a weak sender to a sender, as long as there is a sender.
    Upgrade(u32),
    /// Makes another weak sender.
    CloneWeak(u32),
}

/// A reply to a call.
#[derive(Clone, Copy, Debug, PartialEq)]
pub enum BReply<V> {
    /// The value was sent to this many receivers.
    Sent(u64),
    /// No receiver is alive. The value is returned.
    NoReceivers(V),
    /// The receiver's next value.
    Value(V),
    /// This many values were evicted before the receiver had received them. The receiver skips them.
    Lagged(u64),
    /// There is no value yet.
    Empty,
    /// There is no value to receive, and no sender is alive.
    Closed,
    /// There is no value yet, and the call would wait.
    Waits,
    /// A handle of this number was made.
    New(u32),
    /// The handle was dropped.
    Dropped,
    /// The number of values or of receivers.
    Count(u64),
    /// No handle of this number was made.
    Unknown,
    /// The handle was dropped before.
    Gone,
    /// The handle is of another kind.
    WrongKind,
    /// The channel has made all the handles that it may make.
    TooManyHandles,
    /// No sender is alive, so the weak sender can't be upgraded.
    NoSender,
}

/// What undoing a step needs besides its call.
#[derive(Clone, Copy, Debug, PartialEq)]
pub enum BPatch<V> {
    /// Nothing changed.
    Same,
    /// A value was sent, and none was evicted for it.
    Pushed,
    /// A value was sent, and this one was evicted for it.
    Evicted(V),
    /// A handle was made.
    Made,
    /// The receiver was at this position.
    Moved(u64),
    /// The dropped handle was of this kind, and at this position.
    Left(Kind, u64),
}

impl<V: Copy> BCall<V> {
    /// Returns the number of the handle that the call is made with.
    #[inline(always)] //+
    pub fn handle(&self) -> u32
//~         ensures { result ≡ handle_of self.now }
    {
        match self {
            BCall::Send(handle, _)
            | BCall::Subscribe(handle)
            | BCall::CloneSender(handle)
            | BCall::Resubscribe(handle)
            | BCall::TryRecv(handle)
            | BCall::Recv(handle)
            | BCall::DropHandle(handle)
            | BCall::SenderLen(handle)
            | BCall::ReceiverCount(handle)
            | BCall::ReceiverLen(handle)
            | BCall::Downgrade(handle)
            | BCall::Upgrade(handle)
            | BCall::CloneWeak(handle) => *handle,
        }
    }

    /// Returns the same call, made with another handle.
    pub fn with_handle(self, handle: u32) -> BCall<V>
//~         ensures { result ≡ with_handle self handle }
    {
        match self {
            BCall::Send(_, value) => BCall::Send(handle, value),
            BCall::Subscribe(_) => BCall::Subscribe(handle),
            BCall::CloneSender(_) => BCall::CloneSender(handle),
            BCall::Resubscribe(_) => BCall::Resubscribe(handle),
            BCall::TryRecv(_) => BCall::TryRecv(handle),
            BCall::Recv(_) => BCall::Recv(handle),
            BCall::DropHandle(_) => BCall::DropHandle(handle),
            BCall::SenderLen(_) => BCall::SenderLen(handle),
            BCall::ReceiverCount(_) => BCall::ReceiverCount(handle),
            BCall::ReceiverLen(_) => BCall::ReceiverLen(handle),
            BCall::Downgrade(_) => BCall::Downgrade(handle),
            BCall::Upgrade(_) => BCall::Upgrade(handle),
            BCall::CloneWeak(_) => BCall::CloneWeak(handle),
        }
    }

    /// Returns the kind that the handle must be of, or `None` if any kind will do.
    #[inline(always)] //+
    pub(crate) fn wanted(&self) -> Option<Kind>
//~         ensures { result ≡ wanted_kind self.now }
    {
        match self {
            BCall::Send(_, _)
            | BCall::Subscribe(_)
            | BCall::CloneSender(_)
            | BCall::SenderLen(_)
            | BCall::ReceiverCount(_)
            | BCall::Downgrade(_) => Some(Kind::Sender),
            BCall::Resubscribe(_) | BCall::TryRecv(_) | BCall::Recv(_) | BCall::ReceiverLen(_) =>
                Some(Kind::Receiver),
            BCall::Upgrade(_) | BCall::CloneWeak(_) => Some(Kind::Weak),
            BCall::DropHandle(_) => None,
        }
    }

    /// Whether the call makes a handle, unless it is refused.
    #[inline(always)] //+
    pub fn makes(&self) -> bool
//~         ensures { result ≡ makes self.now }
    {
        matches!(
            self,
            BCall::Subscribe(_)
                | BCall::CloneSender(_)
                | BCall::Resubscribe(_)
                | BCall::Downgrade(_)
                | BCall::Upgrade(_)
                | BCall::CloneWeak(_)
        )
    }
}

impl<V: Copy> BReply<V> {
    /// Whether the reply refuses: the call has changed nothing.
    pub fn refuses(&self) -> bool
//~         ensures { result ≡ refuses self.now }
    {
        matches!(
            self,
            BReply::NoReceivers(_)
                | BReply::Empty
                | BReply::Closed
                | BReply::Waits
                | BReply::Unknown
                | BReply::Gone
                | BReply::WrongKind
                | BReply::TooManyHandles
                | BReply::NoSender
        )
    }

    /// Returns the reply for a handle that can't be used.
    #[inline(always)] //+
    pub(crate) fn refused(fault: HandleFault) -> BReply<V>
//~         ensures { result ≡ fault_reply fault }
    {
        match fault {
            HandleFault::Unknown => BReply::Unknown,
            HandleFault::Gone => BReply::Gone,
            HandleFault::WrongKind => BReply::WrongKind,
        }
    }
}

impl<V: Copy> BPatch<V> {
    /// Returns the patch of a send, given the value that it evicted.
    #[inline(always)] //+
    pub(crate) fn of_send(evicted: Option<V>) -> BPatch<V>
//~         ensures { result ≡ patch_of_send evicted }
    {
        match evicted {
            None => BPatch::Pushed,
            Some(old) => BPatch::Evicted(old),
        }
    }
}
