//! The store of a broadcast's values.
// From crates/rw_values/src/values.rt, with its contracts as comments. //+
use crate::shim::Vec; //+
//~ ghost use Rattle.std.specs.Prelude.{◌≡◌, ◌+◌, ◌-◌, ◌<◌, ◌≤◌, nat_lt, length, drop, slice_get, count_by, All, Some, IfOk, OnOk, OnErr};
//~ ghost use Rattle.rw_ring.specs.declared.ring.TheConstants.{MOST_CAPACITY};
//~ ghost use Rattle.rw_law.specs.declared.limits.TheConstants.{MOST_WEIGHT};
//~ ghost use Rattle.rw_values.specs.Stored.{Awaits, CanBeNext, HasRoom, IsAwaited, age, all_given, empty_store, given, given_of, is_last, kept_at, one_less};
//~ ghost use Rattle.rw_values.specs.Stored.{overwritten, receivers_of, unread_of, value_of, with_left, with_received, with_value};

use crate::source::rw_values::ring::{cell_of, next_cell};
use crate::source::rw_law::{MOST_WEIGHT, NoMemory};
use crate::source::rw_ring::MOST_CAPACITY;
use crate::shim::alloc::Global;
//~ use std::marker::Model;
use crate::shim::mem;

/// A value that was sent.
//~ #[derive(Drop)]
pub struct Kept<V> {
    // How many receivers have yet to receive it.
    receivers: u64,
    // The value, until none has.
    value: Option<V>,
}

/// The values that receivers have yet to receive, by their numbers. The numbers of the sends that failed are left out.
//~ #[derive(Drop)]
pub struct Values<V> {
    // A ring, in which the newest value overwrites the oldest. It grows with each send up to the capacity.
    cells: Vec<Kept<V>>,
    capacity: usize,
    // The cell of the oldest value.
    first: usize,
    // One more than the number of the newest value.
    next: u64,
}

//~ impl<V> Model for Values<V> {
//~     ghost use Rattle.std.specs.Prelude.{vec_capacity};
//~     ghost use Rattle.rw_values.specs.Stored.{Store};
//~     ghost use Rattle.rw_values.specs.Inside.{IsRing, store_of_cells};
//~
//~     ghost Value = { Store V };
//~
//~     ghost view = { λ s. store_of_cells s.capacity s.first s.next s.cells.items (vec_capacity s.cells) };
//~
//~     ghost invariant = { λ s. IsRing s.capacity s.first s.next s.cells.items };
//~ }

/// Counts one receiver less for a value, and returns the value if it was the last.
#[inline(always)]
fn serve<V/*~: Drop~*/>(kept: &mut Kept<V>) -> Option<V>
//~     requires { IsAwaited kept.old }
//~     ensures given { result ≡ given kept.old }
//~     ensures kept { kept.new ≡ one_less kept.old }
{
    kept.receivers -= 1;
    if kept.receivers == 0 {
        kept.value.take()
    } else {
        None
    }
}

impl<V/*~: Drop~*/> Values<V> {
    /// Returns a store of at most this many values. Memory is allocated as they are sent.
    pub fn new(alloc: Global, capacity: usize) -> Values<V>
//~         requires some { 0 < capacity }
//~         requires small { capacity ≤ MOST_CAPACITY }
//~         ensures { result ≡ empty_store capacity }
    {
        Values {
            cells: Vec::new(alloc),
            capacity,
            first: 0,
            next: 0,
        }
    }

    /// Makes room for one more value.
    #[inline(always)]
    pub fn ready(&mut self) -> Result<(), NoMemory>
//~         ensures same { self.new ≡ record self.old { room = self.new.room } }
//~         ensures ok { OnOk result (HasRoom self.new) }
    {
        if self.cells.len() < self.capacity {
            self.cells.reserve(1)?;
        }
        Ok(())
    }

    /// Keeps a value that was sent to this many receivers, and returns the one that it overwrites.
    #[inline(always)]
    pub fn put(&mut self, number: u64, value: V, receivers: u64) -> Option<V>
//~         requires some { 0 < receivers }
//~         requires next { CanBeNext self.old number }
//~         requires small { number < MOST_WEIGHT }
//~         requires room { HasRoom self.old }
//~         ensures given { result ≡ overwritten self.old }
//~         ensures kept { self.new ≡ with_value self.old number receivers value }
    {
        self.next = number + 1;
        let value = Some(value);
        if self.cells.len() < self.capacity {
            self.cells.push_reserved(Kept { receivers, value });
            return None;
        }
        let cell = self.first;
        self.first = next_cell(cell, self.capacity);
        let kept = &mut self.cells[cell];
        kept.receivers = receivers;
        mem::replace(&mut kept.value, value)
    }

    /// Returns the value with this number.
    #[inline(always)]
    pub fn value(&self, number: u64) -> &V
//~         requires { Awaits self.now number }
//~         ensures { value_of (kept_at self.now number) ≡ Some result.now }
    {
        let count = self.cells.len();
        let age = count - (self.next - number) as usize;
        match &self.cells[cell_of(self.first, count, age)].value {
            Some(value) => value,
            None => unreachable!(),
        }
    }

    /// Counts one receiver less for the value with this number, which has it or is gone. Returns the value if it was the last.
    #[inline(always)]
    pub fn receive(&mut self, number: u64) -> Option<V>
//~         requires { Awaits self.old number }
//~         ensures given { result ≡ given_of (kept_at self.old number) }
//~         ensures kept { self.new ≡ with_received self.old number }
    {
        let count = self.cells.len();
        let age = count - (self.next - number) as usize;
        serve(&mut self.cells[cell_of(self.first, count, age)])
    }

    /// Returns whether some receiver has yet to receive the newest value. If none has, none has yet to receive any.
    #[inline(always)]
    pub fn has_unread(&self) -> bool
//~         ensures { result ≡ nat_lt 0 (receivers_of (slice_get self.now.kept (length self.now.kept - 1))) }
    {
        let count = self.cells.len();
        count > 0 && self.cells[cell_of(self.first, count, count - 1)].receivers > 0
    }

    /// Returns how many receivers have yet to receive the value with this number.
    #[inline(always)]
    fn receivers(&self, number: u64) -> u64
//~         requires kept { self.now.next ≤ number + length self.now.kept }
//~         requires sent { number < self.now.next }
//~         ensures { result ≡ receivers_of (kept_at self.now number) }
    {
        let count = self.cells.len();
        let age = count - (self.next - number) as usize;
        self.cells[cell_of(self.first, count, age)].receivers
    }

    /// Returns how many of the values from this number on have one receiver left.
    fn last_of(&self, from: u64) -> usize
//~         requires kept { self.now.next ≤ from + length self.now.kept }
//~         requires sent { from ≤ self.now.next }
//~         ensures { result ≡ count_by is_last (drop (age self.now from) self.now.kept) }
    {
        let mut last = 0;
        for number in from..self.next {
            if self.receivers(number) == 1 {
                last += 1;
            }
        }
        last
    }

    /// Counts one receiver less for each value that a receiver had yet to receive, which is gone. It had this many to receive, of
    /// which the oldest may be overwritten. Returns the values of which it was the last receiver, oldest first.
    pub fn leave(&mut self, alloc: Global, unread: u64) -> Result<Vec<V>, NoMemory>
//~         requires { All IsAwaited (unread_of self.old unread) }
//~         ensures given { IfOk result (λ values. values.items ≡ all_given (unread_of self.old unread)) }
//~         ensures kept { OnOk result (self.new ≡ with_left self.old unread) }
//~         ensures same { OnErr result (self.new ≡ self.old) }
    {
        let from = self.next - unread.min(self.cells.len() as u64);
        let mut given = Vec::with_capacity(alloc, self.last_of(from))?;
        for number in from..self.next {
            match self.receive(number) {
                Some(value) => given.push_reserved(value),
                None => {}
            }
        }
        Ok(given)
    }
}
