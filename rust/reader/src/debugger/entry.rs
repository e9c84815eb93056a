//! A recorded call, as a debugger shows it.

use std::fmt;
use yovanelum_core::source::rw_recording::{Entry as CoreEntry, World};
use yovanelum_core::source::rw_words::{ReplyWord, write_entry};
use yovanelum_record::journal;
use yovanelum_record::operation::Kind;
use yovanelum_record::reply::Reply;

/// A recorded call: who made it, on which channel, and what it returned. Its text is that of a
/// journal's line.
///
/// ```
/// use yovanelum::debugger::Walk;
///
/// let journal = "ttd-journal 2\nbroadcast 2\nsteps\n7 3 0 send 0 5 = sent 1\nend\n";
/// let walk = Walk::open(journal.as_bytes())?;
/// let entry = walk.entry(1).unwrap();
/// assert_eq!((entry.stamp(), entry.actor(), entry.channel(), entry.handle()), (7, 3, 0, 0));
/// assert_eq!((entry.call(), entry.value()), ("send", Some(5)));
/// assert_eq!((entry.reply(), entry.returned()), ("sent", Some(1)));
/// assert_eq!(entry.to_string(), "7 3 0 send 0 5 = sent 1");
/// # Ok::<(), yovanelum::debugger::JournalError>(())
/// ```
pub struct Entry(CoreEntry<World<u64>>);

impl Entry {
    pub(super) fn of(entry: CoreEntry<World<u64>>) -> Entry {
        Entry(entry)
    }

    /// Returns the receiver that the call made, as channel and handle, if it made one.
    pub(super) fn new_receiver(&self) -> Option<(u32, u32)> {
        let call = self.decoded();
        match (call.word.makes(), call.reply) {
            (Some(Kind::Receiver), Reply::New(made)) => Some((call.channel, made as u32)),
            _ => None,
        }
    }

    pub(super) fn decoded(&self) -> journal::RunEntry {
        journal::RunEntry::of(&self.0)
    }

    /// The number of the clock at which it was made. Stamps rise along a run.
    pub fn stamp(&self) -> u64 {
        self.0.stamp
    }

    /// The number of the actor that made it: a thread, or a task with a name.
    pub fn actor(&self) -> u32 {
        self.0.actor
    }

    /// The number of its channel.
    pub fn channel(&self) -> u32 {
        self.0.call.channel
    }

    /// The number of the sender or receiver by which it was made.
    pub fn handle(&self) -> u32 {
        self.0.call.call.handle()
    }

    /// The journal's word for the call, such as `try-recv`.
    pub fn call(&self) -> &'static str {
        self.decoded().word.text()
    }

    /// The number of the value that the call passes, if it passes one.
    pub fn value(&self) -> Option<u64> {
        self.decoded().value
    }

    /// The journal's first word for what it returned, such as `lagged`.
    pub fn reply(&self) -> &'static str {
        let word = ReplyWord::of_reply(&self.0.reply);
        word.and_then(|word| std::str::from_utf8(word.text()).ok())
            .unwrap_or_default()
    }

    /// The number that it returned, if there is one: of a value, of a new handle, or how many. A
    /// flag is 1 or 0.
    pub fn returned(&self) -> Option<u64> {
        self.decoded().reply.number()
    }
}

impl fmt::Debug for Entry {
    fn fmt(&self, f: &mut fmt::Formatter<'_>) -> fmt::Result {
        write!(f, "Entry({self})")
    }
}

impl fmt::Display for Entry {
    fn fmt(&self, f: &mut fmt::Formatter<'_>) -> fmt::Result {
        let mut line = [0; 256];
        let end = write_entry(&self.0, &mut line);
        f.write_str(&String::from_utf8_lossy(&line[..end]))
    }
}
