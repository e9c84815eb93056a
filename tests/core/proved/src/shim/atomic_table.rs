//! A safe stand-in for the kit's `atomic_table`: atomic words, as in the kit, and slots behind a lock each.
//!
//! In the kit a seat has no bytes and a slot no lock: its proofs say who may use a slot. Here the lock says it.

use super::Vec;
use super::alloc::Global;
use super::sync::Wait;
use std::marker::PhantomData;
use std::sync::atomic::{AtomicU64, Ordering::SeqCst};
use std::sync::{Condvar, Mutex};

/// What holds of a table, which contracts alone read.
pub trait TableRule<S, V, K> {}

/// What a step tells its caller.
pub trait Play<S, V> {}

/// How a view is cut in two.
pub trait Split<V> {}

/// How two views are made one.
pub trait Join<V> {}

/// A seat of a table. It has no bytes.
pub struct Seat<S, V>(PhantomData<fn() -> (S, V)>);

impl<S, V> Seat<S, V> {
    fn new() -> Seat<S, V> {
        Seat(PhantomData)
    }
}

/// What threads share of a table.
pub struct Shared<S, V, K, P> {
    words: Vec<AtomicU64>,
    /// A slot is empty once the table is closed and its value was taken.
    slots: Vec<Mutex<Option<S>>>,
    /// What is held from a look at a word until its thread is parked, and by who wakes one.
    parking: Mutex<()>,
    woken: Condvar,
    marker: PhantomData<fn() -> (V, K, P)>,
}

impl<S, V, K, P> Shared<S, V, K, P> {
    /// Writes `new` where the word is `old`, and returns what it was.
    #[inline(always)]
    pub fn compare_exchange<M: Play<S, V>>(
        &self,
        _: &mut Seat<S, V>,
        word: usize,
        old: u64,
        new: u64,
    ) -> u64 {
        match self.words[word].compare_exchange(old, new, SeqCst, SeqCst) {
            Ok(found) | Err(found) => found,
        }
    }

    #[inline(always)]
    pub fn store<M: Play<S, V>>(&self, _: &mut Seat<S, V>, word: usize, new: u64) {
        self.words[word].store(new, SeqCst);
    }

    #[inline(always)]
    pub fn peek(&self, word: usize) -> u64 {
        self.words[word].load(SeqCst)
    }

    /// Puts a value into a slot, and returns the one that was there. Another thread's use of the slot meanwhile would be against the rule.
    #[inline(always)]
    pub fn exchange(&self, _: &mut Seat<S, V>, slot: usize, value: S) -> S {
        let mut held = self.slots[slot]
            .try_lock()
            .expect("a slot that no other thread uses");
        held.replace(value).expect("a value in each slot")
    }

    /// Blocks while the word is `expected`, until it is woken.
    pub fn park<R: Wait>(&self, _: &R, word: usize, expected: u32) {
        let parking = self.parking.lock().unwrap();
        if self.peek(word) == u64::from(expected) {
            drop(self.woken.wait(parking).unwrap());
        }
    }

    pub fn wake_one(&self, _: usize) {
        let _parking = self.parking.lock().unwrap();
        self.woken.notify_one();
    }

    pub fn split_seat<M: Split<V>>(&self, _: &mut Seat<S, V>) -> Seat<S, V> {
        Seat::new()
    }

    pub fn join_seat<M: Join<V>>(&self, _: &mut Seat<S, V>, _: Seat<S, V>) {}
}

/// A table, which is closed by who owns it.
pub struct Table<S, V, K, P, A> {
    pub shared: Shared<S, V, K, P>,
    marker: PhantomData<A>,
}

/// There is no memory for a table. The slots come back.
pub struct Refused<S> {
    pub slots: Vec<S>,
}

impl<S, V, K, P> Table<S, V, K, P, Global> {
    pub fn new(
        alloc: Global,
        words: &[u64],
        slots: Vec<S>,
        _: &K,
    ) -> Result<(Self, Seat<S, V>), Refused<S>> {
        let (Ok(mut kept), Ok(mut held)) = (
            Vec::with_capacity(alloc, words.len()),
            Vec::with_capacity(alloc, slots.len()),
        ) else {
            return Err(Refused { slots });
        };
        for word in words {
            kept.push_reserved(AtomicU64::new(*word));
        }
        for slot in slots {
            held.push_reserved(Mutex::new(Some(slot)));
        }
        let shared = Shared {
            words: kept,
            slots: held,
            parking: Mutex::new(()),
            woken: Condvar::new(),
            marker: PhantomData,
        };
        let table = Table {
            shared,
            marker: PhantomData,
        };
        Ok((table, Seat::new()))
    }

    pub fn close_with(self, _: Seat<S, V>) -> Closed<S> {
        Closed(self.shared.slots)
    }
}

/// A table that no thread shares any more.
pub struct Closed<S>(Vec<Mutex<Option<S>>>);

impl<S> Closed<S> {
    /// Takes the value of a slot, once.
    pub fn take(&mut self, slot: usize) -> S {
        self.0[slot].get_mut().unwrap().take().unwrap()
    }

    pub fn free(self) {}
}
