//! The ring: a value is in the cell whose index is its position modulo the capacity.
// From crates/rw_ring/src/ring.rt, with its contracts as comments. //+
use crate::shim::Vec; //+
//~ ghost use Rattle.std.specs.Prelude.{◌≡◌, ◌+◌, ◌-◌, ◌<◌, ◌≤◌, min, [], length, slice_get, None, IfOk, is_some, nat_lt};
//~ ghost use Rattle.rw_ring.specs.declared.ring.TheConstants.{MOST_CAPACITY};
//~ ghost use Rattle.rw_law.specs.declared.limits.TheConstants.{MOST_WEIGHT};
//~ ghost use Rattle.rw_ring.specs.Windows.{window_after, eviction, window_before, oldest, empty_window};

use crate::source::rw_law::NoMemory;
use crate::shim::alloc::Global;
//~ use std::marker::Model;
use crate::shim::mem;

/// The greatest capacity of a ring.
pub const MOST_CAPACITY: u32 = 65_536;

/// The last values of all that were put.
//~ #[derive(Drop)]
pub struct Ring<V: Copy> {
    cells: Vec<V>,
    capacity: u64,
    count: u64,
}

//~ impl<V: Copy> Model for Ring<V> {
//~     ghost use Rattle.std.specs.Prelude.{◌≡◌, ◌<◌, ◌≤◌, min, vec_len, vec_capacity};
//~     ghost use Rattle.rw_ring.specs.Cells.{in_order};
//~     ghost use Rattle.rw_ring.specs.declared.ring.TheConstants.{MOST_CAPACITY};
//~     ghost use Rattle.rw_ring.specs.Windows.{Ring};
//~
//~     ghost Value = { Ring V };
//~
//~     ghost view = { λ r. record { capacity = r.capacity; count = r.count; values = in_order r.capacity r.count r.cells.items } };
//~
//~     ghost invariant = { λ r. (0 < r.capacity) × (r.capacity ≤ MOST_CAPACITY)
//~         × (vec_len r.cells ≡ min r.count r.capacity) × (r.capacity ≤ vec_capacity r.cells) };
//~ }

impl<V: Copy> Ring<V> {
    /// Returns an empty ring. All the memory that it will need is allocated here, and no cell is written.
    pub fn new(alloc: Global, capacity: u64) -> Result<Self, NoMemory>
//~         requires some { 0 < capacity }
//~         requires most { capacity ≤ MOST_CAPACITY }
//~         ensures { IfOk result (λ r. r ≡ empty_window capacity) }
    {
        Ok(Ring {
            cells: Vec::with_capacity(alloc, capacity as usize)?,
            capacity,
            count: 0,
        })
    }

    /// Returns a copy: it has the same values, at the same positions. If the allocation fails, there is none.
    pub fn copied(&self, alloc: Global) -> Result<Self, NoMemory>
//~         ensures { IfOk result (λ copy. copy ≡ self.now) }
    {
        let mut cells = Vec::with_capacity(alloc, self.capacity as usize)?;
        cells.extend_from_slice(&self.cells)?;
        Ok(Ring {
            cells,
            capacity: self.capacity,
            count: self.count,
        })
    }

    /// Returns how many values the ring retains at most.
    #[inline(always)] //+
    pub fn capacity(&self) -> u64
//~         ensures capacity { result ≡ self.now.capacity }
//~         ensures some { 0 < result }
//~         ensures most { result ≤ MOST_CAPACITY }
    {
        self.capacity
    }

    /// Returns how many values were put. The next one has this position.
    #[inline(always)] //+
    pub fn count(&self) -> u64
//~         ensures count { result ≡ self.now.count }
//~         ensures kept { length self.now.values ≡ min result self.now.capacity }
    {
        self.count
    }

    /// Returns the position of the oldest retained value, or of the next one where none is retained.
    #[inline(always)] //+
    pub fn oldest(&self) -> u64
//~         ensures { result ≡ oldest self.now }
    {
        self.count.saturating_sub(self.capacity)
    }

    /// Returns the value at a position, if it was put and is still retained.
    #[inline(always)] //+
    pub fn at(&self, position: u64) -> Option<V>
//~         ensures evicted { position < oldest self.now → result ≡ None }
//~         ensures kept { oldest self.now ≤ position → result ≡ slice_get self.now.values (position - oldest self.now) }
    {
        if position < self.oldest() || position >= self.count {
            return None;
        }
        Some(self.cells[(position % self.capacity) as usize])
    }

    /// Puts one more value, and returns the one that it evicts.
    #[inline(always)] //+
    pub fn put(&mut self, v: V) -> Option<V>
//~         requires { self.old.count < MOST_WEIGHT }
//~         ensures evicted { result ≡ eviction self.old.capacity self.old.values }
//~         ensures values { self.new.values ≡ window_after self.old.capacity self.old.values v }
//~         ensures count { self.new.count ≡ self.old.count + 1 }
//~         ensures capacity { self.new.capacity ≡ self.old.capacity }
    {
        let position = self.count;
        self.count += 1;
        if position < self.capacity {
            self.cells.push_reserved(v);
            return None;
        }
        let cell = (position % self.capacity) as usize;
        Some(mem::replace(&mut self.cells[cell], v))
    }

    /// Undoes the last put, given the value that it evicted.
    pub fn unput(&mut self, evicted: Option<V>)
//~         requires some { 0 < self.old.count }
//~         requires evicted { is_some evicted ≡ nat_lt self.old.capacity self.old.count }
//~         ensures values { self.new.values ≡ window_before evicted self.old.values }
//~         ensures count { self.new.count ≡ self.old.count - 1 }
//~         ensures capacity { self.new.capacity ≡ self.old.capacity }
    {
        self.count -= 1;
        match evicted {
            None => {
                self.cells.pop();
            }
            Some(v) => {
                let cell = (self.count % self.capacity) as usize;
                self.cells[cell] = v;
            }
        }
    }
}
