//! The table of a channel's handles.
// From crates/rw_handles/src/table.rt, with its contracts as comments. //+
use crate::shim::Vec; //+
//~ ghost use Rattle.std.specs.Prelude.{◌≡◌, ◌+◌, ◌-◌, ◌<◌, ◌≤◌, ◌++◌, ◌∷◌, [], length, take, slice_get, slice_set, Some, IfOk, OnOk, OnErr, IsOk};
//~ ghost use Rattle.rw_handles.specs.declared.kinds.Kind.TheVariants.{Sender, Receiver};
//~ ghost use Rattle.rw_handles.specs.declared.kinds.Slot.TheVariants.{Live, Spent};
//~ ghost use Rattle.rw_handles.specs.Slots.{IsLive, lookup, look_answer, serves, alive, kind_at, receiver_at, value_at, with_value};
//~ ghost use Rattle.rw_handles.specs.Renaming.{IsRenumbered, is_live, live_numbers};
//~ ghost use Rattle.rw_handles.specs.declared.table.TheConstants.{MOST_HANDLES};

use crate::source::rw_handles::kinds::{Found, HandleFault, Kind, Slot};
use crate::source::rw_handles::tally::Tally;
use crate::source::rw_law::NoMemory;
use crate::shim::alloc::Global;
//~ use std::marker::Model;

/// The greatest number of handles that a table makes.
pub const MOST_HANDLES: usize = 65536;

/// Numbered handles, each with a kind and a value.
//~ #[derive(Drop)]
pub struct Table<X: Copy> {
    slots: Vec<Slot<X>>,
    tally: Tally,
}

//~ impl<X: Copy> Model for Table<X> {
//~     ghost use Rattle.std.specs.Prelude.{◌≡◌, ◌-◌, ◌≤◌, vec_len, vec_capacity};
//~     ghost use Rattle.rw_handles.specs.declared.kinds.Kind.{Kind};
//~     ghost use Rattle.rw_handles.specs.Slots.{alive};
//~     ghost use Rattle.rw_handles.specs.declared.table.TheConstants.{MOST_HANDLES};
//~     ghost use Rattle.rw_handles.specs.Handles.{Table};
//~     ghost use Rattle.rw_handles.specs.Tally.{tally_of};
//~
//~     ghost Value = { Table X };
//~
//~     ghost view = { λ t. record { slots = t.slots.items; room = vec_capacity t.slots - vec_len t.slots } };
//~
//~     ghost invariant = { λ t. (vec_len t.slots ≤ MOST_HANDLES) × ((kind : Kind) → tally_of t.tally kind ≡ alive kind t.slots.items) };
//~ }

/// Whether there is a live handle.
fn is_live<X: Copy>(slot: &Slot<X>) -> bool
//~     ensures { result ≡ is_live slot.now }
{
    matches!(slot, Slot::Live(_, _))
}

/// Whether a handle of this kind serves where that kind is wanted. At `None`, any kind serves.
#[inline(always)] //+
fn serves(wanted: Option<Kind>, own: Kind) -> bool
//~     ensures { result ≡ serves wanted own }
{
    match wanted {
        None => true,
        Some(kind) => kind == own,
    }
}

impl<X: Copy> Table<X> {
    /// Returns a table without handles.
    pub fn new(alloc: Global) -> Result<Self, NoMemory>
//~         ensures made { IfOk result (λ t. t.slots ≡ []) }
//~         ensures ok { IsOk result }
    {
        Ok(Table {
            slots: Vec::new(alloc),
            tally: Tally {
                senders: 0,
                receivers: 0,
                weak: 0,
            },
        })
    }

    /// Returns a table with sender 0 and receiver 1, of these values: the handles of a channel at its opening.
    pub fn of_two(alloc: Global, sender: X, receiver: X) -> Result<Self, NoMemory>
//~         ensures { IfOk result (λ t. t.slots ≡ Live Sender sender ∷ Live Receiver receiver ∷ []) }
    {
        let mut table = Table::new(alloc)?;
        table.ready(2)?;
        let _sender = table.make(Kind::Sender, sender);
        let _receiver = table.make(Kind::Receiver, receiver);
        Ok(table)
    }

    /// Returns a copy, with room for no fewer handles. If the allocation fails, there is none.
    pub fn copied(&self, alloc: Global) -> Result<Self, NoMemory>
//~         ensures slots { IfOk result (λ copy. copy.slots ≡ self.now.slots) }
//~         ensures room { IfOk result (λ copy. self.now.room ≤ copy.room) }
    {
        let mut slots = Vec::with_capacity(alloc, self.slots.capacity())?;
        slots.extend_from_slice(&self.slots)?;
        Ok(Table {
            slots,
            tally: self.tally,
        })
    }

    /// Returns how many handles were made, without those that `renumber` took out.
    #[inline(always)] //+
    pub fn made(&self) -> u32
//~         ensures made { result ≡ length self.now.slots }
//~         ensures limited { result ≤ MOST_HANDLES }
    {
        self.slots.len() as u32
    }

    /// Returns how many more can be made without allocating.
    pub fn room(&self) -> u64
//~         ensures { result ≡ self.now.room }
    {
        (self.slots.capacity() - self.slots.len()) as u64
    }

    /// Makes room for n more. Where there is room already, it doesn't allocate.
    pub fn ready(&mut self, n: u64) -> Result<(), NoMemory>
//~         requires { length self.old.slots + n ≤ MOST_HANDLES }
//~         ensures same { self.new.slots ≡ self.old.slots }
//~         ensures grown { self.old.room ≤ self.new.room }
//~         ensures ok { OnOk result (n ≤ self.new.room) }
//~         ensures has_room { n ≤ self.old.room → IsOk result × (self.new.room ≡ self.old.room) }
    {
        if n <= self.room() {
            return Ok(());
        }
        self.slots.reserve(n as usize)?;
        Ok(())
    }

    /// Makes the handle of the next number, and returns the number.
    #[inline(always)] //+
    pub fn make(&mut self, kind: Kind, x: X) -> u32
//~         requires room { 0 < self.old.room }
//~         requires limit { length self.old.slots < MOST_HANDLES }
//~         ensures number { result ≡ length self.old.slots }
//~         ensures slots { self.new.slots ≡ self.old.slots ++ Live kind x ∷ [] }
//~         ensures room { self.new.room + 1 ≡ self.old.room }
    {
        let id = self.slots.len() as u32;
        self.tally.add(kind);
        self.slots.push_reserved(Slot::Live(kind, x));
        id
    }

    /// Undoes the last making, as if its number had never been used.
    pub fn unmake(&mut self)
//~         requires { IsLive (slice_get self.old.slots (length self.old.slots - 1)) }
//~         ensures slots { self.new.slots ≡ take (length self.old.slots - 1) self.old.slots }
//~         ensures room { self.new.room ≡ self.old.room + 1 }
    {
        if let Some(Slot::Live(kind, _)) = self.slots.pop() {
            self.tally.remove(kind);
        }
    }

    /// Drops a live handle, and returns its kind and value.
    #[inline(always)] //+
    pub fn drop_one(&mut self, id: u32) -> (Kind, X)
//~         requires { IsLive (slice_get self.old.slots id) }
//~         ensures dropped { slice_get self.old.slots id ≡ Some (Live result.0 result.1) }
//~         ensures slots { self.new.slots ≡ slice_set self.old.slots id Spent }
//~         ensures room { self.new.room ≡ self.old.room }
    {
        match self.slot(id) {
            Some(Slot::Live(kind, x)) => {
                self.tally.remove(kind);
                self.slots[id as usize] = Slot::Spent;
                (kind, x)
            }
            _ => unreachable!(),
        }
    }

    /// Undoes a drop.
    pub fn undrop(&mut self, id: u32, kind: Kind, x: X)
//~         requires { slice_get self.old.slots id ≡ Some Spent }
//~         ensures slots { self.new.slots ≡ slice_set self.old.slots id (Live kind x) }
//~         ensures room { self.new.room ≡ self.old.room }
    {
        self.tally.add(kind);
        self.slots[id as usize] = Slot::Live(kind, x);
    }

    /// Returns the value of this handle, if it is alive.
    pub fn get(&self, id: u32) -> Option<X>
//~         ensures { result ≡ value_at (slice_get self.now.slots id) }
    {
        match self.slot(id) {
            Some(Slot::Live(_, x)) => Some(x),
            _ => None,
        }
    }

    /// Returns the value of this handle, if it is a live receiver.
    pub fn receiver(&self, id: u32) -> Option<X>
//~         ensures { result ≡ receiver_at (slice_get self.now.slots id) }
    {
        match self.slot(id) {
            Some(Slot::Live(Kind::Receiver, x)) => Some(x),
            _ => None,
        }
    }

    /// Returns the kind of this handle, if it is alive.
    pub fn kind(&self, id: u32) -> Option<Kind>
//~         ensures { result ≡ kind_at (slice_get self.now.slots id) }
    {
        match self.slot(id) {
            Some(Slot::Live(kind, _)) => Some(kind),
            _ => None,
        }
    }

    /// Writes the value of a live handle. Its kind stays.
    #[inline(always)] //+
    pub fn set(&mut self, id: u32, x: X)
//~         requires { IsLive (slice_get self.old.slots id) }
//~         ensures slots { self.new.slots ≡ slice_set self.old.slots id (with_value x (slice_get self.old.slots id)) }
//~         ensures room { self.new.room ≡ self.old.room }
    {
        if let Some(Slot::Live(own, _)) = self.slot(id) {
            self.slots[id as usize] = Slot::Live(own, x);
        }
    }

    /// Returns how many handles of this kind are alive. It reads a count, and no handle.
    #[inline(always)] //+
    pub fn alive(&self, kind: Kind) -> u64
//~         ensures { result ≡ alive kind self.now.slots }
    {
        self.tally.of(kind)
    }

    /// Returns the handle of this number, where it is alive and of the wanted kind. At `None`, any kind serves.
    #[inline(always)] //+
    pub fn find(&self, id: u32, wanted: Option<Kind>) -> Found<X>
//~         ensures { result ≡ lookup wanted self.now.slots id }
    {
        match self.slot(id) {
            None => Found::Fault(HandleFault::Unknown),
            Some(Slot::Spent) => Found::Fault(HandleFault::Gone),
            Some(Slot::Live(own, x)) => {
                if serves(wanted, own) {
                    Found::Handle(own, x)
                } else {
                    Found::Fault(HandleFault::WrongKind)
                }
            }
        }
    }

    /// Returns `Ok` if the number is that of a live handle of this kind.
    pub fn look(&self, id: u32, kind: Kind) -> Result<(), HandleFault>
//~         ensures { result ≡ look_answer (lookup (Some kind) self.now.slots id) }
    {
        match self.find(id, Some(kind)) {
            Found::Fault(fault) => Err(fault),
            Found::Handle(_, _) => Ok(()),
        }
    }

    /// Returns the slot under this number, if it was made.
    #[inline(always)] //+
    fn slot(&self, id: u32) -> Option<Slot<X>>
//~         ensures { result ≡ slice_get self.now.slots id }
    {
        self.slots.get(id as usize).copied()
    }

    /// Returns the numbers of the live handles, in order.
//~     #[tactic(auto, using(crate::proofs::Renaming::numbers_more_live, crate::proofs::Renaming::numbers_more_spent))]
    fn live_numbers(&self, alloc: Global) -> Result<Vec<u32>, NoMemory>
//~         ensures { IfOk result (λ numbers. numbers.items ≡ live_numbers self.now.slots) }
    {
        let mut numbers = Vec::new(alloc);
        for (i, slot) in self.slots.iter().enumerate() {
            if is_live(slot) {
                numbers.push(i as u32)?;
            }
        }
        Ok(numbers)
    }

    /// Takes the numbers of dropped handles out. The live handles stay in order, and get the numbers 0, 1, 2, .. Returns the
    /// number that each had before. At an error nothing has changed.
    pub fn renumber(&mut self, alloc: Global) -> Result<Vec<u32>, NoMemory>
//~         ensures renumbered { IfOk result (λ before. IsRenumbered before.items self.old.slots self.new.slots) }
//~         ensures room { length self.new.slots + self.new.room ≡ length self.old.slots + self.old.room }
//~         ensures same { OnErr result (self.new ≡ self.old) }
    {
        let before = self.live_numbers(alloc)?;
        self.slots.retain(|slot| is_live(slot));
        Ok(before)
    }

    /// Returns the slots, in the order of making.
    pub fn slots(&self) -> &[Slot<X>]
//~         ensures { result.now ≡ self.now.slots }
    {
        self.slots.as_slice()
    }
}
