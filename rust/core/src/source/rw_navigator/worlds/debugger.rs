//! The debugger of a run.
// From crates/rw_navigator/src/worlds/debugger.rt, with its contracts as comments. //+
use crate::shim::Vec; //+

//~ ghost use Rattle.std.specs.Prelude.{[], ◌≡◌, ◌<◌, ◌≤◌, ◌↔◌, Bool, false};
//~ ghost use Rattle.std.specs.Prelude.{IsSome, IsTrue, IfErr, IfOk, IfSome, List, None, OnErr, OnOk, length, slice_get, unwrap_or};
//~ ghost use Rattle.rw_journal.specs.Book.{opening_of};
//~ ghost use Rattle.rw_journal.specs.Run.{IsRun};
//~ ghost use Rattle.rw_navigator.specs.Conditions.{asks_step, holds_of_step};
//~ ghost use Rattle.rw_navigator.specs.Debugger.{as_run, FoundAt, StandsAt, WentAlong, WentBy, WentTo};
//~ ghost use Rattle.rw_navigator.specs.Hits.{hit_above, hit_below};
//~ ghost use Rattle.rw_navigator.specs.Moves.{answer_to, answers_to, distance_between};
//~ ghost use Rattle.rw_navigator.specs.Places.{last_place, shown_at};
//~ ghost use Rattle.rw_navigator.specs.Search.{first_above, last_below, most_above, most_below, step_hit, TestsView};
//~ ghost use Rattle.rw_world.specs.Machines.{ChanShown};
//~ ghost use Rattle.rw_world.specs.Openings.{opening_row, refusal};
//~ ghost use Rattle.rw_world.specs.Records.{IsDocumented};
//~ ghost use Rattle.rw_world.specs.Specified.{WorldEntry};

use super::condition::Cond;
use super::indexes::Indexes;
use super::visitor::Visitor;
use crate::source::rw_navigator::conditions::Probe;
use crate::source::rw_navigator::hit_index::HitIndex;
use crate::source::rw_navigator::moves::{Move, OutOfRange};
use crate::source::rw_navigator::places::Navigator;
use crate::source::rw_journal::{Book, Run};
use crate::source::rw_law::{Entry, NoMemory, Reversible};
use crate::source::rw_world::{Spec, World, documented, machines};
use crate::shim::alloc::Global;
//~ use std::marker::Model;
use crate::shim::snapshot::Snapshot;

/// A run, and a world at one of its places, 0 to `len`. At place n it shows what is documented after the run's first n calls:
/// what the records of all that was ever sent show then.
//~ #[derive(Drop)]
pub struct Debugger<V: Copy> {
    pub(super) specs: Vec<Spec<V>>,
    pub(super) visit: Navigator<World<V>>,
    // Of the conditions on entries that were searched for. There are none before the first.
    pub(super) indexes: Option<Indexes<V>>,
}

//~ impl<V: Copy> Model for Debugger<V> {
//~     ghost use Rattle.rw_navigator.specs.Debugger.{Debugger as Seen, IsDebugger, debugger_at};
//~
//~     ghost Value = { Seen V };
//~
//~     ghost view = { λ a. debugger_at a.specs.items a.visit };
//~
//~     ghost invariant = { λ a. IsDebugger a.specs.items a.visit a.indexes };
//~ }

impl<V: Copy> Debugger<V> {
    /// Opens a run at place 0, with a copy of it. All memory that the moves will need is allocated here.
    pub fn open(alloc: Global, run: &Run<V>) -> Result<Debugger<V>, NoMemory>
//~         ensures { IfOk result (λ debugger. StandsAt debugger run.now 0) }
    {
        let Ok(specs) = Vec::from_slice(alloc, run.specs()) else {
            return Err(NoMemory);
        };
        let start = run.start(alloc)?;
        let visit = Navigator::open(alloc, start, run.entries())?;
        machines::<V>();
        documented::<V>();
        Ok(Debugger {
            specs,
            visit,
            indexes: None,
        })
    }

    /// Opens the run of a book at its last place, with the book's machine and entries: no call is made again. The book was
    /// opened from these specs. It allocates nothing.
    pub fn of_book(specs: Vec<Spec<V>>, book: Book<World<V>>) -> Debugger<V>
//~         requires opens { refusal specs.items ≡ None }
//~         requires opened { opening_of ⟦<World<V> as Reversible>⟧ book ≡ opening_row specs.items }
//~         ensures { StandsAt result (as_run specs.items book.entries) (length book.entries) }
    {
        let (start, machine, entries) = book.into_whole();
        let visit = Navigator::at_end(start, machine, entries);
        machines::<V>();
        documented::<V>();
        Debugger {
            specs,
            visit,
            indexes: None,
        }
    }

    /// Opens a run at place 0, and takes it over: there is no second list of its entries. All memory that the moves will need is
    /// allocated here. Without that memory, it gives the run back.
    pub fn of_run(alloc: Global, run: Run<V>) -> Result<Debugger<V>, Run<V>>
//~         ensures opened { IfOk result (λ debugger. StandsAt debugger run 0) }
//~         ensures back { IfErr result (λ back. back ≡ run) }
    {
        match Visitor::open(alloc, &run) {
            Ok(visitor) => Ok(visitor.resume(run)),
            Err(NoMemory) => Err(run),
        }
    }

    /// Gives out the run, and what stays at the place meanwhile. It allocates nothing.
    pub fn pause(self) -> (Run<V>, Visitor<V>)
//~         requires { IsRun self.run.specs self.run.entries }
//~         ensures run { result.0 ≡ self.run }
//~         ensures visitor { result.1 ≡ self }
    {
        let Debugger {
            specs,
            visit,
            indexes,
        } = self;
        let Navigator {
            machine,
            entries,
            place,
        } = visit;
        let run = Run::of_parts(specs, entries);
        let visitor = Visitor {
            run: Snapshot::of(&run),
            machine,
            place,
            indexes,
        };
        (run, visitor)
    }

    /// Returns what the channels are opened as.
    pub fn specs(&self) -> &[Spec<V>]
//~         ensures { result.now ≡ self.now.run.specs }
    {
        self.specs.as_slice()
    }

    /// Returns the number of entries, which is the last place.
    pub fn len(&self) -> u64
//~         ensures { result ≡ last_place self.now.run }
    {
        self.visit.entries.len() as u64
    }

    /// Whether there is no entry, and so no place but 0.
    pub fn is_empty(&self) -> bool
//~         ensures { IsTrue result ↔ (self.now.run.entries ≡ []) }
    {
        self.visit.entries.is_empty()
    }

    /// Returns the entry that leads from place i to the next, or `None` if there is none. Its reply is the documented one.
    pub fn entry(&self, i: u64) -> Option<Entry<World<V>>>
//~         ensures entry { result ≡ slice_get self.now.run.entries i }
//~         ensures documented { IsDocumented self.now.run.specs self.now.run.entries }
//~         ensures recorded { IfSome result (λ e. ⟦<World<V> as Reversible>⟧.is_waiting e.reply ≡ false) }
//~         ensures sent { IfSome result (λ e. ⟦<World<V> as Reversible>⟧.is_straying e.reply ≡ false) }
    {
        let entry = self.visit.entries.get(/*+*/crate::shim::saturated(/*+*/i /*+*/)/*+*//*~as usize~*/)?;
        Some(Entry {
            actor: entry.actor,
            stamp: entry.stamp,
            call: entry.call,
            reply: entry.reply,
            patch: entry.patch,
        })
    }

    /// Returns the place that it is at.
    pub fn place(&self) -> u64
//~         ensures place { result ≡ self.now.place }
//~         ensures inside { result ≤ last_place self.now.run }
    {
        self.visit.place
    }

    /// Returns how many calls of `apply` and `undo` the machine has had. The count stops at the greatest `u64`.
    pub fn turns(&self) -> u64
//~         ensures { result ≡ self.now.turns }
    {
        self.visit.machine.turns()
    }

    /// Returns the world at the place.
    pub fn state(&self) -> &World<V>
//~         ensures state { ⟦<World<V> as Reversible>⟧.shown result.now ≡ self.now.shown }
//~         ensures documented { ⟦<World<V> as Reversible>⟧.shown result.now ≡ shown_at self.now.run self.now.place }
    {
        self.visit.machine.state()
    }

    /// Makes a move, by undoing or redoing one entry per place. A move that leads to no place is refused, and changes nothing.
    pub fn step(&mut self, to: Move) -> Result<(), OutOfRange>
//~         ensures answer { result ≡ answer_to (last_place self.old.run) self.old.place to }
//~         ensures moved { WentBy self.old self.new to }
//~         ensures refused { OnErr result (self.new ≡ self.old) }
    {
        self.visit.step(to)
    }

    /// Makes the moves in order, and returns the result of each. Time travel is exact: it ends at the place n that the moves
    /// lead to, and shows what is documented after the first n calls. Each recorded reply is the documented one, and an entry
    /// whose reply refuses changes nothing in either direction. The list of results is allocated before the first move.
    pub fn walk(
        &mut self,
        alloc: Global,
        moves: &[Move],
    ) -> Result<Vec<Result<(), OutOfRange>>, NoMemory>
//~         ensures answers { IfOk result (λ answers. answers.items ≡ answers_to (last_place self.old.run) self.old.place moves.now) }
//~         ensures moved { OnOk result (WentAlong self.old self.new moves.now) }
//~         ensures documented { IsDocumented self.old.run.specs self.old.run.entries }
//~         ensures refused { OnErr result (self.new ≡ self.old) }
    {
        self.visit.walk(alloc, moves)
    }

    /// Goes to the nearest hit below the place, and returns it. A hit is a place whose entry meets the condition, or where what
    /// is documented meets it and didn't at the place before. Without such a hit, the place stays the same.
    pub fn back_to<P: Probe<World<V>>>(&mut self, probe: &P) -> Option<u64>
//~         ensures found { (f : List (ChanShown V) → Bool) → TestsView ⟦<World<V> as Reversible>⟧ f (P.holds_of_state probe.now) →
//~             result ≡ hit_below self.old.run (P.asks_step probe.now) (P.holds_of_step probe.now) f self.old.place }
//~         ensures moved { FoundAt self.old self.new result (most_below self.old.place result) }
//~         ensures below { IfSome result (λ place. (0 < place) × (place < self.old.place)) }

        // For a condition on entries, no premise is needed, and only the calls on the way are made.
//~         ensures found_step { IsTrue (P.asks_step probe.now) →
//~             result ≡ last_below (step_hit (P.holds_of_step probe.now) self.old.run.entries) self.old.place }
//~         ensures moved_step { IsTrue (P.asks_step probe.now) →
//~             WentTo self.old self.new (unwrap_or result self.old.place) (distance_between self.old.place (unwrap_or result self.old.place)) }
    {
        self.visit.back_to(probe)
    }

    /// Goes to the nearest hit above the place, and returns it, as `back_to` does. Without such a hit, the place stays the
    /// same.
    pub fn forward_to<P: Probe<World<V>>>(&mut self, probe: &P) -> Option<u64>
//~         ensures found { (f : List (ChanShown V) → Bool) → TestsView ⟦<World<V> as Reversible>⟧ f (P.holds_of_state probe.now) →
//~             result ≡ hit_above self.old.run (P.asks_step probe.now) (P.holds_of_step probe.now) f self.old.place }
//~         ensures moved { FoundAt self.old self.new result (most_above self.old.place (last_place self.old.run) result) }
//~         ensures above { IfSome result (λ place. (self.old.place < place) × (place ≤ last_place self.old.run)) }

        // For a condition on entries, no premise is needed, and only the calls on the way are made.
//~         ensures found_step { IsTrue (P.asks_step probe.now) →
//~             result ≡ first_above (step_hit (P.holds_of_step probe.now) self.old.run.entries) self.old.place (last_place self.old.run) }
//~         ensures moved_step { IsTrue (P.asks_step probe.now) →
//~             WentTo self.old self.new (unwrap_or result self.old.place) (distance_between self.old.place (unwrap_or result self.old.place)) }
    {
        self.visit.forward_to(probe)
    }

    /// Indexes a condition on entries for later searches, unless it is indexed already or memory runs out.
    pub fn keep_index(&mut self, alloc: Global, cond: Cond)
//~         ensures { self.new ≡ self.old }
    {
        let mut indexes = Indexes::of_visit(self.indexes.take(), alloc, &self.visit);
        indexes.keep(alloc, &self.visit, cond);
        self.indexes = Some(indexes);
    }

    /// Returns the index of a condition, if it is kept.
    pub fn index_of(&self, cond: Cond) -> Option<&HitIndex<World<V>, Cond>>
//~         ensures run { IfSome result (λ index. index.now.entries ≡ self.now.run.entries) }
//~         ensures step { IsSome result → IsTrue (asks_step cond) }
//~         ensures same { IfSome result (λ index. (e : WorldEntry V) → holds_of_step index.now.probe e ≡ holds_of_step cond e) }
    {
        match &self.indexes {
            Some(indexes) => indexes.get(cond),
            None => None,
        }
    }

    /// Builds the index of a condition on entries over the run.
    pub fn hit_index<P: Probe<World<V>>>(
        &self,
        alloc: Global,
        probe: &P,
    ) -> Result<HitIndex<World<V>, P>, NoMemory>
//~         requires { IsTrue (P.asks_step probe.now) }
//~         ensures probe { IfOk result (λ index. index.probe ≡ probe.now) }
//~         ensures entries { IfOk result (λ index. index.entries ≡ self.now.run.entries) }
    {
        HitIndex::build(alloc, &self.visit, probe)
    }
}
