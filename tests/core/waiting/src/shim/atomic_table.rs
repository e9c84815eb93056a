//! A safe stand-in for the kit's `atomic_table`, whose steps take turns.

use super::Vec;
use super::alloc::Global;
use super::sync::Wait;
use crate::orders::Place;
use std::marker::PhantomData;
use std::mem;
use std::sync::Mutex;

/// What holds of a table, which contracts alone read.
pub trait TableRule<S, V, K> {}

/// What a step tells its caller.
pub trait Play<S, V> {}

/// How a view is cut in two.
pub trait Split<V> {}

/// How two views are made one.
pub trait Join<V> {}

/// A seat of a table. It has no bytes.
pub struct Seat<S, V>(PhantomData<fn() -> (S, V)>);

impl<S, V> Seat<S, V> {
    fn new() -> Seat<S, V> {
        Seat(PhantomData)
    }
}

/// A slot, and the place that says who had it.
struct Slot<S> {
    place: Place,
    value: Mutex<S>,
}

/// What threads share of a table.
pub struct Shared<S, V, K, P> {
    words: std::vec::Vec<Place>,
    slots: std::vec::Vec<Slot<S>>,
    marker: PhantomData<fn() -> (V, K, P)>,
}

impl<S, V, K, P> Shared<S, V, K, P> {
    /// Writes `new` where the word is `old`, and returns what it was.
    pub fn compare_exchange<M: Play<S, V>>(
        &self,
        _: &mut Seat<S, V>,
        word: usize,
        old: u64,
        new: u64,
    ) -> u64 {
        self.words[word].change("compare and exchange", |number| {
            let found = *number;
            if found == old {
                *number = new;
            }
            found
        })
    }

    pub fn store<M: Play<S, V>>(&self, _: &mut Seat<S, V>, word: usize, new: u64) {
        self.words[word].change("store", |number| {
            *number = new;
            0
        });
    }

    pub fn peek(&self, word: usize) -> u64 {
        self.words[word].change("peek", |number| *number)
    }

    /// Puts a value into a slot, and returns the one that was there.
    pub fn exchange(&self, _: &mut Seat<S, V>, slot: usize, value: S) -> S {
        let Slot {
            place,
            value: there,
        } = &self.slots[slot];
        place.exchange();
        let mut there = there.try_lock().expect("one thread runs at a time");
        mem::replace(&mut there, value)
    }

    /// Blocks while the word is `expected`, until it is woken.
    pub fn park<R: Wait>(&self, _: &R, word: usize, expected: u32) {
        self.words[word].park(u64::from(expected));
    }

    pub fn wake_one(&self, word: usize) {
        self.words[word].wake("wake one", false);
    }

    pub fn split_seat<M: Split<V>>(&self, _: &mut Seat<S, V>) -> Seat<S, V> {
        Seat::new()
    }

    pub fn join_seat<M: Join<V>>(&self, _: &mut Seat<S, V>, _: Seat<S, V>) {}
}

/// A table, which is closed by who owns it.
pub struct Table<S, V, K, P, A> {
    pub shared: Shared<S, V, K, P>,
    marker: PhantomData<A>,
}

/// There is no memory for a table. The slots come back.
pub struct Refused<S> {
    pub slots: Vec<S>,
}

impl<S, V, K, P> Table<S, V, K, P, Global> {
    pub fn new(
        _: Global,
        words: &[u64],
        slots: Vec<S>,
        _: &K,
    ) -> Result<(Self, Seat<S, V>), Refused<S>> {
        let slot = |value| Slot {
            place: Place::new(0),
            value: Mutex::new(value),
        };
        let shared = Shared {
            words: words.iter().copied().map(Place::new).collect(),
            slots: slots.into_iter().map(slot).collect(),
            marker: PhantomData,
        };
        let table = Table {
            shared,
            marker: PhantomData,
        };
        Ok((table, Seat::new()))
    }

    pub fn close_with(self, _: Seat<S, V>) -> Closed<S> {
        let slots = self.shared.slots.into_iter();
        Closed(slots.map(|slot| slot.value.into_inner().ok()).collect())
    }
}

/// A table that no thread shares any more.
pub struct Closed<S>(std::vec::Vec<Option<S>>);

impl<S> Closed<S> {
    /// Takes the value of a slot, once.
    pub fn take(&mut self, slot: usize) -> S {
        self.0[slot].take().unwrap()
    }

    pub fn free(self) {}
}
