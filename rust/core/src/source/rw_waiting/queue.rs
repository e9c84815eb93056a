//! A queue from which items leave at any time, each by its number.
// From crates/rw_waiting/src/queue.rt, with its contracts as comments. //+
//~ ghost use Rattle.std.specs.Prelude.{◌≡◌, ◌<◌, ◌^◌, ◌==◌, None, Some, true, [], length, IfOk, IfErr, OnOk, OnErr};
//~ ghost use Rattle.std.specs.Option.{option_copied};
//~ ghost use Rattle.rw_waiting.specs.Queue.{empty, entries_of, item_of, with_item, with_items, with_other, without};

use crate::source::rw_law::NoMemory;
use crate::shim::alloc::Global;
use crate::shim::collections::BTreeMap;
//~ use std::marker::Model;
use crate::shim::mem;

/// An item with its number.
//~ #[derive(Drop)]
pub struct Entry<T> {
    pub number: u64,
    pub item: T,
}

/// Items in the order in which they were added. Each gets the next number.
//~ #[derive(Drop)]
pub struct Queue<T> {
    // By their numbers, so in order.
    items: BTreeMap<u64, T>,
    next: u64,
}

//~ impl<T> Model for Queue<T> {
//~     ghost use Rattle.rw_waiting.specs.Queue.{AreNumbered, Queued, entries_of};
//~
//~     ghost Value = { Queued T };
//~
//~     ghost view = { λ q. record { items = entries_of q.items.entries; next = q.next } };
//~
//~     ghost invariant = { λ q. AreNumbered q.next q.items.entries };
//~ }

impl<T/*~: Drop~*/> Queue<T> {
    /// Returns an empty queue.
    pub fn new(alloc: Global) -> Queue<T>
//~         ensures { result ≡ empty }
    {
        Queue {
            items: BTreeMap::new(alloc),
            next: 0,
        }
    }

    /// Whether no item is here.
    #[inline(always)] //+
    pub fn is_empty(&self) -> bool
//~         ensures { result ≡ (length self.now.items == 0) }
    {
        self.items.len() == 0
    }

    /// Returns the item with this number, if it is here.
    pub fn get(&self, number: u64) -> Option<&T>
//~         ensures { option_copied result ≡ item_of self.now number }
    {
        self.items.get(&number)
    }

    /// Adds an item behind the others, and returns its number. If the allocation fails, nothing has changed, and the item is
    /// dropped.
    pub fn add(&mut self, item: T) -> Result<u64, NoMemory>
//~         requires { self.old.next < 2 ^ 63 }
//~         ensures number { IfOk result (λ number. number ≡ self.old.next) }
//~         ensures added { IfOk result (λ _. self.new ≡ with_item self.old item) }
//~         ensures same { OnErr result (self.new ≡ self.old) }
    {
        let number = self.next;
        self.items.insert(number, item)?;
        self.next = number + 1;
        Ok(number)
    }

    /// Puts another item in place of the one with this number, and returns that one. If it isn't here, nothing has changed, and the
    /// other one comes back.
    pub fn replace(&mut self, number: u64, other: T) -> Result<T, T>
//~         ensures replaced { IfOk result (λ item. item_of self.old number ≡ Some item) }
//~         ensures other { OnOk result (self.new ≡ with_other self.old number other) }
//~         ensures absent { OnErr result (item_of self.old number ≡ None) }
//~         ensures back { IfErr result (λ item. item ≡ other) }
//~         ensures same { OnErr result (self.new ≡ self.old) }
    {
        match self.items.get_mut(&number) {
            Some(item) => Ok(mem::replace(item, other)),
            None => Err(other),
        }
    }

    /// Removes the item with this number, if it is here, and returns it.
    pub fn remove(&mut self, number: u64) -> Option<T>
//~         ensures removed { result ≡ item_of self.old number }
//~         ensures left { self.new ≡ without self.old number }
    {
        self.items.remove(&number)
    }

    /// Removes all items, and returns them by their numbers, so in order.
    pub fn remove_all(&mut self, alloc: Global) -> BTreeMap<u64, T>
//~         ensures removed { entries_of result.entries ≡ self.old.items }
//~         ensures left { self.new ≡ with_items self.old [] }
    {
        mem::replace(&mut self.items, BTreeMap::new(alloc))
    }
}
