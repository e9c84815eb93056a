//! A machine at a place of its journal.
// From crates/rw_navigator/src/places.rt, with its contracts as comments. //+
use crate::shim::Vec; //+

//~ ghost use Rattle.std.specs.Prelude.{IsTrue, [], ◌≡◌, ◌<◌, ◌≤◌, ◌+◌, ◌-◌, ◌^◌, ◌↔◌, length, slice_get, Some, IfOk};
//~ ghost use Rattle.rw_law.specs.Journal.{after, IsLegal};
//~ ghost use Rattle.rw_navigator.specs.declared.places.TheConstants.{MOST_PLACES};
//~ ghost use Rattle.rw_navigator.specs.Navigator.{start_of, IsAtEnd, IsNavigator, MovedTo};

use crate::source::rw_navigator::counting::Counted;
use crate::source::rw_journal::MOST_ENTRIES;
use crate::source::rw_law::{Entry, NoMemory, Reversible};
use crate::source::rw_world::MOST_CHANNELS;
use crate::shim::alloc::Global;
//~ use std::marker::Model;
use crate::shim::snapshot::Snapshot;

/// The greatest possible place: that of a world with the most channels, each with the most entries.
pub const MOST_PLACES: usize = MOST_CHANNELS * MOST_ENTRIES;

/// A journal, and a machine at one of its places, 0 to `len`. At place n it shows where the first n entries lead.
//~ #[derive(Drop)]
pub struct Navigator<R: Reversible> {
    pub(crate) machine: Counted<R>,
    pub(crate) entries: Vec<Entry<R>>,
    pub(crate) place: u64,
}

//~ impl<R: Reversible> Model for Navigator<R> {
//~     ghost use Rattle.rw_navigator.specs.Navigator.{Navigator as Seen, IsNavigator};
//~
//~     ghost Value = { Seen R R.Call R.Reply R.Patch };
//~
//~     ghost view = { λ a. record { machine = a.machine; entries = a.entries.items; place = a.place } };
//~
//~     ghost invariant = { λ a. IsNavigator R.Reversible (record { machine = a.machine; entries = a.entries.items; place = a.place }) };
//~ }

impl<R: Reversible /*~+ Drop~*/> Navigator<R> {
    /// Opens a journal that is legal from `start`, at place 0, with a copy of its entries. All memory that the moves will need
    /// is allocated here. On an error `start` is dropped.
    pub fn open(alloc: Global, start: R, entries: &[Entry<R>]) -> Result<Navigator<R>, NoMemory>
//~         requires weight { R.weigh (R.shown start) ≤ 2 ^ 32 }
//~         requires few { length entries.now ≤ MOST_PLACES }
//~         requires legal { IsLegal R.Reversible (R.shown start) entries.now }
//~         ensures start { IfOk result (λ navigator. start_of R.Reversible navigator ≡ R.shown start) }
//~         ensures entries { IfOk result (λ navigator. navigator.entries ≡ entries.now) }
//~         ensures shows { IfOk result (λ navigator. R.shown navigator.machine.state ≡ R.shown start) }
//~         ensures place { IfOk result (λ navigator. navigator.place ≡ 0) }
//~         ensures turns { IfOk result (λ navigator. navigator.machine.turns ≡ 0) }
    {
        Navigator::over(start, copy_of(alloc, entries)?)
    }

    /// Like `open`, but over the entries themselves: no second list of them is made.
    pub fn over(mut start: R, entries: Vec<Entry<R>>) -> Result<Navigator<R>, NoMemory>
//~         requires weight { R.weigh (R.shown start) ≤ 2 ^ 32 }
//~         requires few { length entries.items ≤ MOST_PLACES }
//~         requires legal { IsLegal R.Reversible (R.shown start) entries.items }
//~         ensures start { IfOk result (λ navigator. start_of R.Reversible navigator ≡ R.shown start) }
//~         ensures entries { IfOk result (λ navigator. navigator.entries ≡ entries.items) }
//~         ensures shows { IfOk result (λ navigator. R.shown navigator.machine.state ≡ R.shown start) }
//~         ensures place { IfOk result (λ navigator. navigator.place ≡ 0) }
//~         ensures turns { IfOk result (λ navigator. navigator.machine.turns ≡ 0) }
    {
        // The proof needs this call: it ensures that `start` has a view that machines can have.
        let _weight = start.weight();
        start.ready(entries.len() as u64)?;
        Ok(Navigator {
            machine: Counted::new(start),
            entries,
            place: 0,
        })
    }
}

impl<R: Reversible> Navigator<R> {
    /// Opens a journal at its last place, with the machine that made its calls: none of them is made again. `start` is that
    /// machine as it was before the first call. It allocates nothing.
    pub fn at_end(start: Snapshot<R>, machine: R, entries: Vec<Entry<R>>) -> Navigator<R>
//~         requires few { length entries.items ≤ MOST_PLACES }
//~         requires made { IsAtEnd R.Reversible (R.shown start.value) machine entries.items }
//~         ensures start { start_of R.Reversible result ≡ R.shown start.value }
//~         ensures entries { result.entries ≡ entries.items }
//~         ensures machine { result.machine.state ≡ machine }
//~         ensures place { result.place ≡ length entries.items }
//~         ensures turns { result.machine.turns ≡ 0 }
    {
        let place = entries.len() as u64;
        Navigator {
            machine: Counted::new(machine),
            entries,
            place,
        }
    }

    /// Returns the place that the machine is at.
    pub fn place(&self) -> u64
//~         ensures place { result ≡ self.now.place }
//~         ensures inside { result ≤ length self.now.entries }
//~         ensures visit { IsNavigator R.Reversible self.now }
    {
        self.place
    }

    /// Returns the number of entries, which is the last place.
    pub fn len(&self) -> u64
//~         ensures { result ≡ length self.now.entries }
    {
        self.entries.len() as u64
    }

    /// Whether there is no entry, and so no place but 0.
    pub fn is_empty(&self) -> bool
//~         ensures { IsTrue result ↔ (self.now.entries ≡ []) }
    {
        self.entries.is_empty()
    }

    /// Returns how many calls of `apply` and `undo` the machine has had since the journal was opened. The count stops at the
    /// greatest `u64`.
    pub fn turns(&self) -> u64
//~         ensures { result ≡ self.now.machine.turns }
    {
        self.machine.turns()
    }

    /// Returns the machine with its count. The navigator has no other machine.
    pub fn counted(&self) -> &Counted<R>
//~         ensures { result.now ≡ self.now.machine }
    {
        &self.machine
    }

    /// Returns the machine, which shows the state of the place.
    pub fn state(&self) -> &R
//~         ensures state { result.now ≡ self.now.machine.state }
//~         ensures shows { R.shown result.now
//~             ≡ after R.Reversible (start_of R.Reversible self.now) self.now.entries self.now.place }
    {
        self.machine.state()
    }

    /// Returns the entry that leads from place i to the next, or `None` if there is none.
    pub fn entry(&self, i: u64) -> Option<Entry<R>>
//~         ensures { result ≡ slice_get self.now.entries i }
    {
        match self.entries.get(/*+*/crate::shim::saturated(/*+*/i /*+*/)/*+*//*~as usize~*/) {
            Some(entry) => Some(entry.copied()),
            None => None,
        }
    }

    /// Returns the entry that leads to a place.
    pub(crate) fn entry_before(&self, place: u64) -> &Entry<R>
//~         requires above { 0 < place }
//~         requires inside { place ≤ length self.now.entries }
//~         ensures { slice_get self.now.entries (place - 1) ≡ Some result.now }
    {
        &self.entries[place as usize - 1]
    }

    /// Redoes the entry after the place.
    pub(crate) fn advance(&mut self)
//~         requires { self.old.place < length self.old.entries }
//~         ensures { MovedTo R.Reversible self.old self.new (self.old.place + 1) 1 }
    {
        let entry = &self.entries[self.place as usize];
        let _ = self.machine.apply(&entry.call);
        self.place += 1;
    }

    /// Undoes the entry before the place.
    pub(crate) fn retreat(&mut self)
//~         requires { 0 < self.old.place }
//~         ensures { MovedTo R.Reversible self.old self.new (self.old.place - 1) 1 }
    {
        let entry = &self.entries[self.place as usize - 1];
        self.machine.undo(&entry.call, &entry.patch);
        self.place -= 1;
    }
}

/// Copies the entries.
fn copy_of<R: Reversible>(alloc: Global, entries: &[Entry<R>]) -> Result<Vec<Entry<R>>, NoMemory>
//~     ensures { IfOk result (λ copy. copy.items ≡ entries.now) }
{
    let mut copy = Vec::with_capacity(alloc, entries.len())?;
    for entry in entries {
        copy.push_reserved(entry.copied());
    }
    Ok(copy)
}
