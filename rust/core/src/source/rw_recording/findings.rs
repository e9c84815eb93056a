//! What is found in a run: its losses, totals and closings.
// From crates/rw_recording/src/findings.rt, with its contracts as comments. //+
use crate::shim::Vec; //+

//~ ghost use Rattle.std.specs.Prelude.{◌≡◌, IfOk};
//~ ghost use Rattle.rw_recording.specs.Findings.{AreFindings, IsFoundIn};

use crate::source::rw_findings::{
    Closing, Closings, LateReader, Loss, LossStart, Totals, closings_of, last_receipts_of,
    losses_of, starts_of, totals_of,
};
use crate::source::rw_journal::Run;
use crate::source::rw_law::NoMemory;
use crate::source::rw_text::{TextFault, read};
use crate::shim::alloc::Global;
//~ use std::marker::Model;

/// The losses, totals and closings of a run, and how many entries it has.
//~ #[derive(Drop)]
pub struct Findings {
    entries: u64,
    losses: Vec<Loss>,
    starts: Vec<LossStart>,
    totals: Vec<Totals>,
    receipts: Vec<u64>,
    closings: Vec<Closing>,
    late: Vec<LateReader>,
}

//~ impl Model for Findings {
//~     ghost use Rattle.rw_recording.specs.Findings.{Findings as Seen};
//~
//~     ghost Value = { Seen };
//~
//~     ghost view = { λ f. record {
//~       entries = f.entries;
//~       losses = f.losses.items;
//~       starts = f.starts.items;
//~       totals = f.totals.items;
//~       receipts = f.receipts.items;
//~       closings = f.closings.items;
//~       late = f.late.items;
//~     } };
//~ }

impl Findings {
    /// Finds the losses, totals and closings of a run.
    pub fn of(alloc: Global, run: &Run<u64>) -> Result<Findings, NoMemory>
//~         ensures { IfOk result (AreFindings run.now) }
    {
        let losses = losses_of(alloc, run)?;
        let starts = starts_of(alloc, run, &losses)?;
        let totals = totals_of(alloc, run)?;
        let receipts = last_receipts_of(alloc, run, &totals)?;
        let Closings { channels, readers } = closings_of(alloc, run)?;
        Ok(Findings {
            entries: run.len(),
            losses,
            starts,
            totals,
            receipts,
            closings: channels,
            late: readers,
        })
    }

    /// Reads the run whose text the bytes are, in any version, and finds its losses, totals and closings.
    pub fn read(alloc: Global, text: &[u8]) -> Result<Findings, TextFault>
//~         ensures { IsFoundIn text.now result }
    {
        let run: Run<u64> = read(alloc, text)?;
        Findings::of(alloc, &run).map_err(|_| TextFault::NoMemory)
    }

    /// Returns how many entries the run has.
    pub fn entries(&self) -> u64
//~         ensures { result ≡ self.now.entries }
    {
        self.entries
    }

    /// Returns the losses in the order of the places at which they began, then of channels, then of receivers.
    pub fn losses(&self) -> &[Loss]
//~         ensures { result.now ≡ self.now.losses }
    {
        self.losses.as_slice()
    }

    /// Returns where each loss began, in the order of the losses.
    pub fn starts(&self) -> &[LossStart]
//~         ensures { result.now ≡ self.now.starts }
    {
        self.starts.as_slice()
    }

    /// Returns the totals of all receivers in the order of channels, then of receivers.
    pub fn totals(&self) -> &[Totals]
//~         ensures { result.now ≡ self.now.totals }
    {
        self.totals.as_slice()
    }

    /// Returns the place at which each receiver was last given a value, or 0, in the order of the totals.
    pub fn receipts(&self) -> &[u64]
//~         ensures { result.now ≡ self.now.receipts }
    {
        self.receipts.as_slice()
    }

    /// Returns the channels that were closed, in their order.
    pub fn closings(&self) -> &[Closing]
//~         ensures { result.now ≡ self.now.closings }
    {
        self.closings.as_slice()
    }

    /// Returns what receivers did after their channel was closed, in the order of channels, then of receivers.
    pub fn late(&self) -> &[LateReader]
//~         ensures { result.now ≡ self.now.late }
    {
        self.late.as_slice()
    }
}
