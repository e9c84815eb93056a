//! What the debug adapter `yovanelum-dap` needs of a journal beside the walk: its names, and the
//! words of the report.
//!
//! It is for that program alone, and changes with it.

use super::{Entry, JournalError, Walk};
use crate::account::Saying;
use crate::report::Report;
use std::path::Path;
use yovanelum_record::journal::{Run, TextFault};
use yovanelum_record::sidecar::{Sidecar, checksum, test_beside};

pub use super::named::{Entities, Entity};
pub use yovanelum_record::conditions::NamedCondition;
pub use yovanelum_record::sidecar::{SourceLocation, read_whole};

/// A journal with its names, and what was found in its run.
pub struct Recorded {
    saying: Saying,
    account: String,
    report: String,
    look: u64,
}

/// A journal that was opened.
pub struct Opened {
    /// The walk, at the last place.
    pub walk: Walk,
    pub recorded: Recorded,
    /// How many bytes of the text are of whole lines, if it is truncated.
    pub cut_off: Option<usize>,
    /// Why the names were left out, if they were.
    pub names_fault: Option<String>,
}

/// Opens a run with its names.
///
/// # Errors
///
/// Returns that there is no memory.
pub fn opened(run: Run, names: Sidecar) -> Result<(Walk, Recorded), JournalError> {
    let walk = Walk::over(&run)?;
    Ok((walk, Recorded::of(run, names).map_err(JournalError)?))
}

/// Which test made the run, as its names say.
pub struct Test<'a> {
    pub package: &'a str,
    pub target: &'a str,
    pub name: &'a str,
    pub thread: &'a str,
}

impl Opened {
    /// Opens a journal text with the text of its names, if there is one. One that is truncated is
    /// salvaged.
    ///
    /// # Errors
    ///
    /// Returns the first error in the text, or that there is no memory.
    pub fn read(text: &[u8], names: Option<String>) -> Result<Opened, JournalError> {
        let (run, cut_off) = match Run::read(text) {
            Err(TextFault::Truncated) => {
                let (run, bytes) = Run::salvage(text).map_err(JournalError)?;
                (run, Some(bytes))
            }
            read => (read.map_err(JournalError)?, None),
        };
        // The names of a journal that was truncated since can't be told from those of another one.
        let read = names.map(|names| match cut_off {
            None => Sidecar::of_journal(&names, text),
            Some(_) => Sidecar::read(&names),
        });
        let (names, names_fault) = match read {
            Some(Ok(names)) => (names, None),
            Some(Err(fault)) => (Sidecar::default(), Some(fault)),
            None => (Sidecar::default(), None),
        };
        let (walk, recorded) = opened(run, names)?;
        Ok(Opened {
            walk,
            recorded,
            cut_off,
            names_fault,
        })
    }
}

impl Recorded {
    fn of(run: Run, names: Sidecar) -> Result<Recorded, TextFault> {
        let (saying, account) = Saying::of(&run, names)?;
        Ok(Recorded {
            saying,
            account: account.to_json(),
            look: account.look,
            report: Report::of(account).text(None, false),
        })
    }

    /// The account of the run, as `yovanelum why --json` prints it.
    pub fn account(&self) -> &str {
        &self.account
    }

    /// The report on the run, as a failing test prints it, without its last lines.
    pub fn report(&self) -> &str {
        &self.report
    }

    /// The place that is worth looking at first.
    pub fn look(&self) -> u64 {
        self.look
    }

    /// How many calls lead to the window in which the run begins. Nobody has made them.
    pub fn lead(&self) -> u64 {
        self.saying.names().lead()
    }

    /// Returns by how many values a receiver really lags that lags by `lag` in the journal: a
    /// window may let one lag by 1 of which none of its calls tells.
    pub fn lag(&self, channel: u32, handle: u32, lag: u64) -> u64 {
        let window = self.saying.names().window_of(channel);
        match window.and_then(|window| window.lags.get(&handle.into())) {
            Some(real) if lag > 0 => real + lag - 1,
            _ => lag,
        }
    }

    pub fn actor(&self, actor: u32) -> String {
        self.saying.actor(actor.into())
    }

    pub fn channel(&self, channel: u32) -> String {
        self.saying.channel(channel)
    }

    /// Returns the number of a handle in its channel, which in a window differs from that in the
    /// journal. One that is only in the lead has none.
    pub fn number(&self, channel: u32, handle: u32) -> Option<u64> {
        self.saying.names().real_number(channel, handle)
    }

    pub fn receiver(&self, channel: u32, handle: u32) -> String {
        self.saying.handle(channel, handle, true)
    }

    pub fn sender(&self, channel: u32, handle: u32) -> String {
        self.saying.handle(channel, handle, false)
    }

    pub fn value(&self, channel: u32, value: u64) -> String {
        self.saying.value(channel, value)
    }

    pub fn text(&self, channel: u32, value: u64) -> Option<&str> {
        self.saying.text(channel, value)
    }

    /// Returns tokio's name of the method whose call led to a place, or `drop`. The entry is that
    /// of the place.
    pub fn method(&self, place: u64, entry: &Entry) -> &'static str {
        self.saying.method(place, &entry.decoded())
    }

    pub fn call(&self, place: u64, entry: &Entry) -> String {
        self.saying.call(place, &entry.decoded())
    }

    pub fn reply(&self, entry: &Entry) -> String {
        self.saying.reply(&entry.decoded(), entry.reply())
    }

    /// Where the call was made that led to a place, as an index into the locations.
    pub fn location(&self, place: u64, entry: &Entry) -> Option<usize> {
        self.saying.location(entry.channel(), place)
    }

    pub fn locations(&self) -> &[SourceLocation] {
        self.saying.locations()
    }

    /// Where a handle was created, as an index into the locations.
    pub fn made(&self, channel: u32, handle: u32) -> Option<usize> {
        let made = self.saying.names().made.get(&channel.into())?;
        made.get(&handle.into()).copied()
    }

    /// The folder that the paths of sources are relative to.
    pub fn root(&self) -> Option<&str> {
        self.saying.names().ending.root.as_deref()
    }

    /// The checksum that a source had.
    pub fn source_checksum(&self, file: &str) -> Option<u64> {
        self.saying.names().ending.sources.get(file).copied()
    }

    pub fn test(&self) -> Option<Test<'_>> {
        let test = self.saying.names().ending.test.as_ref()?;
        Some(Test {
            package: &test.package,
            target: &test.target,
            name: &test.name,
            thread: &test.thread,
        })
    }
}

/// Returns the checksum of a file's bytes, as names have it.
pub fn checksum_of(bytes: &[u8]) -> u64 {
    checksum(bytes)
}

/// Returns which test made the run of the journal at this path, if the names beside it say so: its
/// name, and its thread's.
pub fn test_of(journal: &Path) -> Option<(String, String)> {
    let test = test_beside(journal)?;
    Some((test.name, test.thread))
}
