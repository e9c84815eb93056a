//! What calls wait for, and what tells them that they may go on.
// From crates/rw_waiting/src/notices.rt, with its contracts as comments. //+
//~ ghost use Rattle.std.specs.Prelude.{◌≡◌};
//~ ghost use Rattle.rw_waiting.specs.Told as spec;
//~ ghost use Rattle.rw_waiting.specs.Told.{told_of};

use crate::source::rw_handles::Kind;

/// What a call waits for.
#[derive(Clone, Copy, Debug, PartialEq, Eq)]
pub enum WaitFor {
    /// A value that the receiver has not received yet, or that no sender is alive.
    Value,
    /// That no receiver is alive.
    NoReceiver,
}

/// What a call has done that may concern those who wait.
#[derive(Clone, Copy, Debug, PartialEq, Eq)]
pub enum Notice {
    /// It has sent a value, or changed the value of a watch and notified its receivers.
    Sent,
    /// It has dropped a handle of this kind, and this number of its kind is alive then.
    Dropped(Kind, u64),
}

/// How many senders and how many receivers of a channel are alive.
#[derive(Clone, Copy, Debug, PartialEq, Eq)]
pub struct Counts {
    pub senders: u64,
    pub receivers: u64,
}

/// Returns which calls a drop wakes, by the counts before it and those that are left. The drop of the last sender wakes those who wait for
/// a value, and that of the last receiver those who wait for no receiver.
pub fn told_by_counts(before: Counts, left: Counts) -> Option<WaitFor>
//~     ensures { result ≡ spec.told_by_counts before left }
{
    if before.senders > 0 && left.senders == 0 {
        return Some(WaitFor::Value);
    }
    if before.receivers > 0 && left.receivers == 0 {
        return Some(WaitFor::NoReceiver);
    }
    None
}

/// Returns which calls a notice wakes: all that wait for this. A value wakes those who wait for one, and so does the drop of the last
/// sender. The drop of the last receiver wakes those who wait for that.
#[inline(always)] //+
pub fn told(notice: Notice) -> Option<WaitFor>
//~     ensures { result ≡ told_of notice }
{
    match notice {
        Notice::Sent => Some(WaitFor::Value),
        Notice::Dropped(Kind::Sender, 0) => Some(WaitFor::Value),
        Notice::Dropped(Kind::Receiver, 0) => Some(WaitFor::NoReceiver),
        Notice::Dropped(_, _) => None,
    }
}
