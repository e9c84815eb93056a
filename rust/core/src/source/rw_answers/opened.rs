//! A run that was read once, to be asked again and again.
// From crates/rw_answers/src/opened.rt, with its contracts as comments. //+
use crate::shim::Vec; //+

//~ ghost use Rattle.std.specs.Prelude.{◌≡◌, ◌⊎◌, IfOk, IfSome, IfNone, Ok, OnErr, OnOk};
//~ ghost use Rattle.rw_journal.specs.Run.{IsRun};
//~ ghost use Rattle.rw_law.specs.Numbers.{numbers};
//~ ghost use Rattle.rw_text.specs.Memory.{AsksMemory};
//~ ghost use Rattle.rw_text.specs.Reading.{reading_of};
//~ ghost use Rattle.rw_answers.specs.FoundLines.{IsFoundText};
//~ ghost use Rattle.rw_answers.specs.HeldPages.{HasFault, IsRead, answers_of, state_lines};
//~ ghost use Rattle.rw_answers.specs.LossLines.{IsLossText};
//~ ghost use Rattle.rw_answers.specs.Opened.{IsWalked, run_walked};
//~ ghost use Rattle.rw_answers.specs.Pages.{IsWithin};
//~ ghost use Rattle.rw_answers.specs.PeakLines.{AreChannelTexts};

use crate::source::rw_answers::found_lines::found_text;
use crate::source::rw_answers::held_pages::{answers_page, states_page};
use crate::source::rw_answers::loss_lines::losses_text;
use crate::source::rw_answers::peak_lines::peaks_text;
use crate::source::rw_console::{MOST_BYTES, PausedWalk, Walk};
use crate::source::rw_findings::Stretches;
use crate::source::rw_journal::Run;
use crate::source::rw_law::NoMemory;
use crate::source::rw_lines::StreamFault;
use crate::source::rw_text::TextFault;
use crate::shim::alloc::Global;
//~ use std::marker::Model;

/// A run with a walk over it, which has the only list of its entries. The walk stays open, so that the way to the next state is short and
/// no search is indexed twice. Where the run is read for what is found in it, the walk pauses.
//~ #[derive(Drop)]
pub struct Opened {
    // It is always there between the calls.
    walk: Option<Walk>,
}

//~ impl Model for Opened {
//~     ghost use Rattle.std.specs.Prelude.{ℕ};
//~     ghost use Rattle.rw_journal.specs.Run.{Run as Seen};
//~     ghost use Rattle.rw_answers.specs.Opened.{IsWalked, run_walked};
//~
//~     ghost Value = { Seen ℕ };
//~
//~     ghost view = { λ o. run_walked o.walk };
//~
//~     ghost invariant = { λ o. IsWalked o.walk };
//~ }

impl Opened {
    /// Opens the run of a journal text, or returns `None` if the text has a fault. All memory that its walk will need is allocated here.
    pub fn of_text(alloc: Global, journal: &[u8]) -> Result<Option<Opened>, NoMemory>
//~         ensures run { IfOk result (λ read. IfSome read (λ opened. reading_of numbers journal.now ≡ Ok opened)) }
//~         ensures fault { IfOk result (λ read. IfNone read (HasFault journal.now)) }
        // Memory is refused where the reader asks for it, or once the run is read. So no fault of the text is hidden.
//~         ensures memory { OnErr result (AsksMemory numbers journal.now ⊎ IsRead journal.now) }
    {
        let run = match crate::source::rw_text::read::<u64>(alloc, journal) {
            Ok(run) => run,
            Err(TextFault::NoMemory) => return Err(NoMemory),
            Err(_) => return Ok(None),
        };
        // The proof needs this call: it ensures that specs and entries are those of a run.
        let _specs = run.specs();
        match Walk::of_run(alloc, run) {
            Ok(walk) => Ok(Some(Opened { walk: Some(walk) })),
            Err(_run) => Err(NoMemory),
        }
    }

    /// Parts it into its run, to be read by others, and what stays of its walk.
    pub fn pause(self) -> (Run<u64>, PausedWalk)
//~         ensures run { result.0 ≡ self }
//~         ensures paused { result.1.run ≡ self }
    {
        let Opened { walk } = self;
        let mut walk = walk;
        run_of(&mut walk)
    }

    /// Holds the run again, at the place where its walk was.
    pub fn resume(run: Run<u64>, paused: PausedWalk) -> Opened
//~         requires { paused.run ≡ run }
//~         ensures { result ≡ run }
    {
        // The proof needs this call: it ensures that specs and entries are those of a run.
        let _specs = run.specs();
        Opened {
            walk: Some(paused.resume(run)),
        }
    }

    /// Returns what commands write over the run, as `answers_page` does.
    pub fn answers(&mut self, alloc: Global, commands: &[u8]) -> Result<Vec<u8>, StreamFault>
//~         ensures text { IfOk result (λ text. text.items ≡ answers_of self.old commands.now) }
//~         ensures limit { OnOk result (IsWithin MOST_BYTES (answers_of self.old) commands.now) }
//~         ensures run { self.new ≡ self.old }
    {
        let Some(mut walk) = self.walk.take() else {
            unreachable!()
        };
        let answered = answers_page(alloc, &mut walk, commands);
        self.walk = Some(walk);
        answered
    }

    /// Returns the lines with the states of these places.
    pub fn states(&mut self, alloc: Global, places: &[u64]) -> Result<Vec<u8>, NoMemory>
//~         ensures text { IfOk result (λ text. text.items ≡ state_lines self.old places.now) }
//~         ensures run { self.new ≡ self.old }
    {
        let Some(mut walk) = self.walk.take() else {
            unreachable!()
        };
        let states = states_page(alloc, &mut walk, places);
        self.walk = Some(walk);
        states
    }

    /// Returns a line for each loss of the run.
    pub fn losses(&mut self, alloc: Global) -> Result<Vec<u8>, NoMemory>
//~         ensures text { IfOk result (λ text. IsLossText self.old text.items) }
//~         ensures run { self.new ≡ self.old }
    {
        let (run, paused) = run_of(&mut self.walk);
        let losses = losses_text(alloc, &run);
        self.walk = Some(paused.resume(run));
        losses
    }

    /// Returns the lines of all else that is found in the run.
    pub fn found(&mut self, alloc: Global) -> Result<Vec<u8>, NoMemory>
//~         ensures text { IfOk result (λ text. IsFoundText self.old text.items) }
//~         ensures run { self.new ≡ self.old }
    {
        let (run, paused) = run_of(&mut self.walk);
        let found = found_text(alloc, &run);
        self.walk = Some(paused.resume(run));
        found
    }

    /// Returns the peaks of the receivers of these channels.
    pub fn peaks(
        &mut self,
        alloc: Global,
        stretches: Stretches,
        channels: &[u8],
    ) -> Result<Vec<u8>, NoMemory>
//~         ensures text { IfOk result (λ text. AreChannelTexts self.old stretches channels.now text.items) }
//~         ensures run { self.new ≡ self.old }
    {
        let (run, paused) = run_of(&mut self.walk);
        let peaks = peaks_text(alloc, &run, stretches, channels);
        self.walk = Some(paused.resume(run));
        peaks
    }
}

/// Takes the walk out, and parts it into its run and what stays of it.
fn run_of(walk: &mut Option<Walk>) -> (Run<u64>, PausedWalk)
//~     requires { IsWalked walk.old }
//~     ensures run { result.0 ≡ run_walked walk.old }
//~     ensures paused { result.1.run ≡ run_walked walk.old }
//~     ensures whole { IsRun result.0.specs result.0.entries }
{
    match walk.take() {
        Some(walk) => walk.pause(),
        None => unreachable!(),
    }
}
