//! A world at a place of a run that others have.
// From crates/rw_navigator/src/worlds/visitor.rt, with its contracts as comments. //+

//~ ghost use Rattle.std.specs.Prelude.{◌≡◌, ◌+◌, ◌<◌, IfOk};
//~ ghost use Rattle.rw_navigator.specs.Debugger.{StandsAt, WentTo};
//~ ghost use Rattle.rw_navigator.specs.Places.{last_place, shown_at};

use super::debugger::Debugger;
use super::indexes::Indexes;
use crate::source::rw_navigator::counting::Counted;
use crate::source::rw_navigator::places::Navigator;
use crate::source::rw_journal::Run;
use crate::source::rw_law::{NoMemory, Reversible};
use crate::source::rw_world::{World, documented, machines};
use crate::shim::alloc::Global;
//~ use std::marker::Model;
use crate::shim::snapshot::Snapshot;

/// A world at one of the places of a run that others have, who lend it the run where it goes on. So there is no second list of the
/// entries. The indexes of a debugger stay with it.
//~ #[derive(Drop)]
pub struct Visitor<V: Copy> {
    // Has no bytes: it shows the run to contracts.
    pub(super) run: Snapshot<Run<V>>,
    pub(super) machine: Counted<World<V>>,
    pub(super) place: u64,
    pub(super) indexes: Option<Indexes<V>>,
}

//~ impl<V: Copy> Model for Visitor<V> {
//~     ghost use Rattle.rw_navigator.specs.Debugger.{Debugger as Seen, IsVisitor, debugger_at, visit_of};
//~
//~     ghost Value = { Seen V };
//~
//~     ghost view = { λ a. debugger_at a.run.value.specs (visit_of a.run.value.entries a.machine a.place) };
//~
//~     ghost invariant = { λ a. IsVisitor a.run.value a.machine a.place a.indexes };
//~ }

impl<V: Copy> Visitor<V> {
    /// Opens a world at place 0 of a run. All memory that the run's calls will need is allocated here.
    pub fn open(alloc: Global, run: &Run<V>) -> Result<Visitor<V>, NoMemory>
//~         ensures { IfOk result (λ visitor. StandsAt visitor run.now 0) }
    {
        let mut start = run.start(alloc)?;
        let entries = run.entries();
        // The proof needs this call: it ensures that `start` has a view that machines can have.
        let _weight = start.weight();
        start.ready(entries.len() as u64)?;
        machines::<V>();
        documented::<V>();
        Ok(Visitor {
            run: Snapshot::of(run),
            machine: Counted::new(start),
            place: 0,
            indexes: None,
        })
    }

    /// Returns the world at the place.
    pub fn state(&self) -> &World<V>
//~         ensures state { ⟦<World<V> as Reversible>⟧.shown result.now ≡ self.now.shown }
//~         ensures documented { ⟦<World<V> as Reversible>⟧.shown result.now ≡ shown_at self.now.run self.now.place }
    {
        self.machine.state()
    }

    /// Goes to the next place, by the call of the run's next entry.
    pub fn advance(&mut self, run: &Run<V>)
//~         requires same { run.now ≡ self.old.run }
//~         requires more { self.old.place < last_place self.old.run }
//~         ensures { WentTo self.old self.new (self.old.place + 1) 1 }
    {
        let place = self.place;
        let entry = &run.entries()[place as usize];
        let _ = self.machine.apply(&entry.call);
        self.place += 1;
    }

    /// Returns a debugger at the place, which takes over the run. It allocates nothing.
    pub fn resume(self, run: Run<V>) -> Debugger<V>
//~         requires { run ≡ self.run }
//~         ensures { result ≡ self }
    {
        let Visitor {
            run: _,
            machine,
            place,
            indexes,
        } = self;
        let (specs, entries) = run.into_parts();
        let visit = Navigator {
            machine,
            entries,
            place,
        };
        Debugger {
            specs,
            visit,
            indexes,
        }
    }
}
