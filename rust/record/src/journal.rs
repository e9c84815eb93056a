//! Runs, as the core makes them of recorded calls and reads them from journal texts, and what it
//! finds in them.
//!
//! A place is a number of entries: at place 3 the first three calls have been made. All that reads
//! a journal or saves one has a run of here.

#[cfg(test)]
pub mod tests;

pub use yovanelum_core::source::rw_findings::{
    ChannelTraffic, ChannelValue, values_between, values_by,
};
pub use yovanelum_core::source::rw_recording::{
    Closing, Counts, Findings, LateReader, Loss, LossEnd, Spec, TextFault, Totals,
};

use crate::numbered::NumberMap;
use crate::operation::Operation;
use crate::reply::Reply;
use crate::sidecar::Sidecar;
use yovanelum_core::shim::alloc::Global;
use yovanelum_core::source::rw_findings::traffic_of;
use yovanelum_core::source::rw_law::{self, NoMemory};
use yovanelum_core::source::rw_navigator::Debugger;
use yovanelum_core::source::rw_recording::{self, ChanCall, World};
use yovanelum_core::source::rw_text;

/// A run: the channels of a recorder and their calls, or those of a journal text that was read.
pub struct Run(pub rw_recording::Run<u64>, OwnActors);

/// The numbers of callers of their own, by the places that their calls led to, of those whose actor
/// in the journal stands for several.
type OwnActors = NumberMap<u64, u32>;

/// The values and the lives of the handles of each channel that was asked for.
pub type FoundTraffic = Vec<Option<ChannelTraffic<u64>>>;

/// A recorded call.
#[derive(Clone, Copy, Debug, PartialEq, Eq)]
pub struct RunEntry {
    pub stamp: u64,
    pub actor: u32,
    pub channel: u32,
    pub handle: u32,
    pub word: Operation,
    /// The number of the value that the call passes, if it passes one.
    pub value: Option<u64>,
    pub reply: Reply,
}

impl RunEntry {
    pub fn of(entry: &rw_law::Entry<World<u64>>) -> RunEntry {
        let call = &entry.call.call;
        RunEntry {
            stamp: entry.stamp,
            actor: entry.actor,
            channel: entry.call.channel,
            handle: call.handle(),
            word: Operation::of(call),
            value: value_of(call),
            reply: Reply::of(Ok(entry.reply)),
        }
    }
}

fn value_of(call: &ChanCall<u64>) -> Option<u64> {
    use rw_recording::{BCall, WCall};
    match call {
        ChanCall::B(BCall::Send(_, value)) => Some(*value),
        ChanCall::W(WCall::Send(_, value) | WCall::SendReplace(_, value)) => Some(*value),
        ChanCall::W(WCall::Modify { value, .. }) => Some(*value),
        _ => None,
    }
}

impl Run {
    /// Wraps a run of the core.
    pub fn of(run: rw_recording::Run<u64>) -> Run {
        Run(run, OwnActors::new())
    }

    /// Returns the journal text of the run.
    ///
    /// # Errors
    ///
    /// Returns `NoMemory` if there is none for the text.
    pub fn text(&self) -> Result<Vec<u8>, NoMemory> {
        let mut text = yovanelum_core::shim::Vec::new(Global);
        rw_text::write(&self.0, &mut text).map_err(|_| NoMemory)?;
        // The bytes stay where they are.
        Ok(text.into_iter().collect())
    }

    /// Reads the run of a journal text.
    ///
    /// # Errors
    ///
    /// Returns the first fault of the text, as `ttd check` does.
    pub fn read(text: &[u8]) -> Result<Run, TextFault> {
        rw_text::read(Global, text).map(Run::of)
    }

    /// The same, with callers told apart as the names beside the journal do.
    ///
    /// # Errors
    ///
    /// Returns the first fault of the text, as `ttd check` does.
    pub fn with_callers(text: &[u8], names: &Sidecar) -> Result<Run, TextFault> {
        let mut run = Run::read(text)?;
        run.tell_callers_apart(&names.callers);
        Ok(run)
    }

    /// Reads the run of a journal text that may be truncated. Returns also how many bytes its whole
    /// lines have.
    ///
    /// # Errors
    ///
    /// Returns the first fault of the text, if it isn't only truncated.
    pub fn salvage(text: &[u8]) -> Result<(Run, usize), TextFault> {
        let (run, bytes) = rw_text::salvage(Global, text)?;
        Ok((Run::of(run), bytes as usize))
    }

    /// Opens the debugger of a copy of the run, at place 0.
    ///
    /// # Errors
    ///
    /// Returns `NoMemory` if there is none for the copy.
    pub fn debugger(&self) -> Result<Debugger<u64>, TextFault> {
        Debugger::open(Global, &self.0).map_err(|NoMemory| TextFault::NoMemory)
    }

    /// Returns what is found in the run.
    ///
    /// # Errors
    ///
    /// Returns `NoMemory` if there is none.
    pub fn findings(&self) -> Result<Findings, TextFault> {
        Findings::of(Global, &self.0).map_err(|_| TextFault::NoMemory)
    }

    /// Returns the values, and the lives of the handles, of each channel that is asked for, found
    /// in one pass over the entries. Of the others there is `None`.
    ///
    /// # Errors
    ///
    /// Returns `NoMemory` if there is none for them.
    pub fn traffic(&self, channels: &[bool]) -> Result<FoundTraffic, TextFault> {
        match traffic_of(Global, &self.0, channels) {
            Ok(found) => Ok(found.into_iter().collect()),
            Err(NoMemory) => Err(TextFault::NoMemory),
        }
    }

    /// What the channels were opened as.
    pub fn specs(&self) -> &[Spec<u64>] {
        self.0.specs()
    }

    /// How many entries the run has.
    pub fn len(&self) -> u64 {
        self.0.len()
    }

    /// Tells callers apart whose actor in the journal stands for several: those of these calls, by
    /// channel, and how many of its entries are before each. They have numbers that no actor has.
    pub fn tell_callers_apart(&mut self, callers: &NumberMap<u64, NumberMap<u64, usize>>) {
        if callers.is_empty() {
            return;
        }
        // There are no more callers than calls, so a greater number is none of them.
        let first = u64::from(rw_law::MOST_ACTORS);
        let numbers = first..first + self.0.len();
        let mut before = vec![0; self.specs().len()];
        for (place, entry) in (1..).zip(self.0.entries()) {
            let (channel, count) = (entry.call.channel, &mut before[entry.call.channel as usize]);
            let of_channel = callers.get(&channel.into());
            let caller = of_channel.and_then(|callers| callers.get(count));
            let caller = caller.map(|caller| *caller as u64);
            if let Some(caller) = caller.filter(|it| numbers.contains(it)) {
                self.1.insert(place, caller as u32);
            }
            *count += 1;
        }
    }

    fn with_own_actor(&self, place: u64, mut entry: RunEntry) -> RunEntry {
        #[cfg(feature = "steps")]
        crate::steps::add(1);
        if let Some(actor) = self.1.get(&place) {
            entry.actor = *actor;
        }
        entry
    }

    /// Returns the entry that led to a place from 1 on.
    pub fn entry(&self, place: u64) -> RunEntry {
        self.with_own_actor(place, RunEntry::of(&self.0.entries()[place as usize - 1]))
    }

    /// Returns each entry with the place that it led to.
    pub fn entries(&self) -> impl Iterator<Item = (u64, RunEntry)> {
        let entries = (1..).zip(self.0.entries().iter().map(RunEntry::of));
        entries.map(|(place, entry)| (place, self.with_own_actor(place, entry)))
    }

    /// How many entries each channel has.
    pub fn entries_by_channel(&self) -> Vec<usize> {
        let mut counts = vec![0; self.specs().len()];
        for entry in self.0.entries() {
            counts[entry.call.channel as usize] += 1;
        }
        counts
    }

    /// Returns the last stamp up to this one that an entry has, or 0.
    pub fn last_stamp(&self, stamp: u64) -> u64 {
        match self.place_of_stamp(stamp) {
            0 => 0,
            place => self.0.entries()[place as usize - 1].stamp,
        }
    }

    /// Returns the place at which all entries with stamps up to this one had been made.
    pub fn place_of_stamp(&self, stamp: u64) -> u64 {
        let entries = self.0.entries();
        entries.partition_point(|entry| entry.stamp <= stamp) as u64
    }
}

/// Returns the words of `ttd check` for a fault.
pub fn said(fault: TextFault) -> String {
    match fault {
        TextFault::NoMemory => "no memory".to_string(),
        fault => format!("journal fault {fault}"),
    }
}
