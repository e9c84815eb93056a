//! What a call returns, in a form that is passed in registers.
// From crates/rw_steps/src/reply.rt, with its contracts as comments. //+
//~ ghost use Rattle.std.specs.Prelude.{◌≡◌, is_some};
//~ ghost use Rattle.rw_steps.specs.Replies as spec;
//~ ghost use Rattle.rw_steps.specs.Replies.{number_of, of_broadcast, of_fault, of_made, of_watch};

use crate::source::rw_broadcast::BReply;
use crate::source::rw_journal::TakeFault;
use crate::source::rw_waiting::WaitFor;
use crate::source::rw_watch::WReply;
use crate::source::rw_world::ChanReply;

/// What a call returns. All that carry a number carry one of 64 bits, so that a reply is passed in registers: its kind in one, and its
/// number in another.
#[derive(Clone, Copy, Debug, PartialEq, Eq)]
pub enum Reply {
    // A call tests by one comparison whether this answers it: those that do are first.
    Sent(u64),
    NoReceivers(u64),
    Value(u64),
    Lagged(u64),
    Empty,
    Closed,
    /// The number of a handle.
    New(u64),
    Dropped,
    Count(u64),
    Stored,
    Old(u64),
    /// 1 for `true`, and 0 for `false`, as in `Flag`.
    Told(u64),
    Flag(u64),
    Done,
    NoSender,
    Waits,
    Unknown,
    Gone,
    WrongKind,
    TooManyHandles,
    NoChannel,
    JournalFull,
    NoMemory,
}

/// Returns 1 for `true`, and 0 for `false`.
#[inline(always)]
fn number_of(flag: bool) -> u64
//~     ensures { result ≡ number_of flag }
{
    if flag { 1 } else { 0 }
}

impl Reply {
    /// Returns what a call returns that was made, or wasn't.
    pub fn of(made: Result<ChanReply<u64>, TakeFault>) -> Reply
//~         ensures { result ≡ of_made made }
    {
        match made {
            Ok(ChanReply::B(reply)) => Reply::of_broadcast(reply),
            Ok(ChanReply::W(reply)) => Reply::of_watch(reply),
            Ok(ChanReply::NoChannel) => Reply::NoChannel,
            Err(fault) => Reply::of_fault(fault),
        }
    }

    /// As [`Reply::of`], of a call that makes or drops a handle. The replies that these have most often are tested here, so they are too
    /// few for a table of jumps. The rest is passed on, so small that it is passed in registers.
    #[inline(always)]
    pub fn of_handles(made: Result<ChanReply<u64>, TakeFault>) -> Reply
//~         ensures { result ≡ of_made made }
    {
        match made {
            Ok(ChanReply::B(BReply::New(handle))) => Reply::New(u64::from(handle)),
            Ok(ChanReply::W(WReply::New(handle))) => Reply::New(u64::from(handle)),
            Ok(ChanReply::B(BReply::Dropped)) => Reply::Dropped,
            Ok(ChanReply::W(WReply::Dropped)) => Reply::Dropped,
            Ok(ChanReply::B(other)) => Reply::of_broadcast(other),
            Ok(ChanReply::W(other)) => Reply::of_watch(other),
            Ok(ChanReply::NoChannel) => Reply::NoChannel,
            Err(fault) => Reply::of_fault(fault),
        }
    }

    /// As [`Reply::of_handles`], of any other call.
    #[inline(always)]
    pub fn of_others(made: Result<ChanReply<u64>, TakeFault>) -> Reply
//~         ensures { result ≡ of_made made }
    {
        match made {
            Ok(ChanReply::B(BReply::Value(value))) => Reply::Value(value),
            Ok(ChanReply::W(WReply::Value(value))) => Reply::Value(value),
            Ok(ChanReply::B(BReply::Sent(receivers))) => Reply::Sent(receivers),
            Ok(ChanReply::B(BReply::Empty)) => Reply::Empty,
            Ok(ChanReply::W(WReply::Stored)) => Reply::Stored,
            Ok(ChanReply::B(other)) => Reply::of_broadcast(other),
            Ok(ChanReply::W(other)) => Reply::of_watch(other),
            Ok(ChanReply::NoChannel) => Reply::NoChannel,
            Err(fault) => Reply::of_fault(fault),
        }
    }

    #[inline(never)]
    fn of_broadcast(reply: BReply<u64>) -> Reply
//~         ensures { result ≡ of_broadcast reply }
    {
        match reply {
            BReply::Sent(receivers) => Reply::Sent(receivers),
            BReply::NoReceivers(value) => Reply::NoReceivers(value),
            BReply::Value(value) => Reply::Value(value),
            BReply::Lagged(count) => Reply::Lagged(count),
            BReply::Empty => Reply::Empty,
            BReply::Closed => Reply::Closed,
            BReply::New(handle) => Reply::New(u64::from(handle)),
            BReply::Dropped => Reply::Dropped,
            BReply::Count(count) => Reply::Count(count),
            BReply::Unknown => Reply::Unknown,
            BReply::Gone => Reply::Gone,
            BReply::WrongKind => Reply::WrongKind,
            BReply::TooManyHandles => Reply::TooManyHandles,
            BReply::NoSender => Reply::NoSender,
            BReply::Waits => Reply::Waits,
        }
    }

    #[inline(never)]
    fn of_watch(reply: WReply<u64>) -> Reply
//~         ensures { result ≡ of_watch reply }
    {
        match reply {
            WReply::Stored => Reply::Stored,
            WReply::NoReceivers(value) => Reply::NoReceivers(value),
            WReply::Old(value) => Reply::Old(value),
            WReply::Told(told) => Reply::Told(number_of(told)),
            WReply::New(handle) => Reply::New(u64::from(handle)),
            WReply::Value(value) => Reply::Value(value),
            WReply::Flag(flag) => Reply::Flag(number_of(flag)),
            WReply::Closed => Reply::Closed,
            WReply::Waits => Reply::Waits,
            WReply::Done => Reply::Done,
            WReply::Count(count) => Reply::Count(count),
            WReply::Dropped => Reply::Dropped,
            WReply::Unknown => Reply::Unknown,
            WReply::Gone => Reply::Gone,
            WReply::WrongKind => Reply::WrongKind,
            WReply::TooManyHandles => Reply::TooManyHandles,
        }
    }

    #[inline(never)]
    fn of_fault(fault: TakeFault) -> Reply
//~         ensures { result ≡ of_fault fault }
    {
        match fault {
            TakeFault::Waits => Reply::Waits,
            TakeFault::NoChannel => Reply::NoChannel,
            TakeFault::JournalFull => Reply::JournalFull,
            TakeFault::NoMemory => Reply::NoMemory,
        }
    }

    /// Returns the reply to a question that is answered by yes or no.
    pub fn flag(flag: bool) -> Reply
//~         ensures { result ≡ spec.flag flag }
    {
        Reply::Flag(number_of(flag))
    }

    /// Returns the number that it carries, if it does.
    pub fn number(self) -> Option<u64>
//~         ensures { result ≡ spec.number self }
    {
        match self {
            Reply::Sent(number)
            | Reply::NoReceivers(number)
            | Reply::Value(number)
            | Reply::Lagged(number)
            | Reply::New(number)
            | Reply::Count(number)
            | Reply::Old(number)
            | Reply::Told(number)
            | Reply::Flag(number) => Some(number),
            _ => None,
        }
    }

    /// Whether the value that a watch was sent is the one that it holds from here on.
    #[inline(always)]
    pub fn says_stored(self) -> bool
//~         ensures { result ≡ spec.says_stored self }
    {
        match self {
            Reply::Stored | Reply::Old(_) | Reply::Told(_) => true,
            _ => false,
        }
    }

    /// Whether the call has sent a value that receivers learn of, or changed that of a watch so.
    pub fn is_change(self) -> bool
//~         ensures { result ≡ is_some (spec.told self) }
    {
        self.told().is_some()
    }

    /// Whether it answers the call: it was made, and its handle could make it. Such a call has left an entry, if it is recorded.
    #[inline(always)]
    pub fn answers(self) -> bool
//~         ensures { result ≡ spec.answers self }
    {
        match self {
            Reply::Waits
            | Reply::NoMemory
            | Reply::JournalFull
            | Reply::TooManyHandles
            | Reply::Unknown
            | Reply::Gone
            | Reply::WrongKind
            | Reply::NoChannel => false,
            _ => true,
        }
    }

    /// Returns what a call with this reply tells those who wait, unless it drops a handle: a value that is sent, or a change that notifies,
    /// tells those who wait for one.
    #[inline(always)]
    pub fn told(self) -> Option<WaitFor>
//~         ensures { result ≡ spec.told self }
    {
        match self {
            Reply::Sent(_) | Reply::Stored | Reply::Old(_) => Some(WaitFor::Value),
            Reply::Told(notified) if notified != 0 => Some(WaitFor::Value),
            _ => None,
        }
    }
}
