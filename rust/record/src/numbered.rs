//! Maps and sets whose keys are numbers. All of them have their order in a map of one type, which
//! rustc compiles once: a `BTreeMap` of each type of value took a fifth of the crate's time.

use crate::listed::IntoList;
use crate::sorting::move_to_places;
use std::collections::{BTreeMap, btree_map};
use std::fmt;
use std::mem;
use std::ops::RangeBounds;
use std::vec;
use yovanelum_core::source::rw_law::NoMemory;

/// A key, which is a number in the order of keys.
pub trait Numbered: Copy {
    fn number(self) -> u64;
}

impl Numbered for u32 {
    fn number(self) -> u64 {
        self.into()
    }
}

impl Numbered for u64 {
    fn number(self) -> u64 {
        self
    }
}

impl Numbered for usize {
    fn number(self) -> u64 {
        self as u64
    }
}

impl Numbered for (u32, u32) {
    fn number(self) -> u64 {
        (u64::from(self.0) << 32) | u64::from(self.1)
    }
}

/// A map in the order of its keys.
#[derive(Clone)]
pub struct NumberMap<K, V> {
    // Where the item of each key is, by its number.
    places: BTreeMap<u64, usize>,
    items: Vec<(K, V)>,
}

/// The items of a map in the order of keys.
pub struct Items<'a, K, V> {
    places: btree_map::Range<'a, u64, usize>,
    items: &'a [(K, V)],
}

impl<'a, K, V> Items<'a, K, V> {
    fn at(&self, place: usize) -> (&'a K, &'a V) {
        let (key, value) = &self.items[place];
        (key, value)
    }
}

impl<'a, K, V> Iterator for Items<'a, K, V> {
    type Item = (&'a K, &'a V);

    fn next(&mut self) -> Option<Self::Item> {
        let (_, place) = self.places.next()?;
        Some(self.at(*place))
    }
}

impl<K, V> DoubleEndedIterator for Items<'_, K, V> {
    fn next_back(&mut self) -> Option<Self::Item> {
        let (_, place) = self.places.next_back()?;
        Some(self.at(*place))
    }
}

impl<K, V> NumberMap<K, V> {
    pub const fn new() -> NumberMap<K, V> {
        NumberMap {
            places: const { BTreeMap::new() },
            items: const { Vec::new() },
        }
    }

    pub fn len(&self) -> usize {
        self.items.len()
    }

    pub fn is_empty(&self) -> bool {
        self.items.is_empty()
    }

    pub fn iter(&self) -> Items<'_, K, V> {
        Items {
            places: self.places.range(..),
            items: &self.items,
        }
    }

    pub fn keys(&self) -> impl Iterator<Item = &K> {
        self.iter().map(|(key, _)| key)
    }

    pub fn values(&self) -> impl Iterator<Item = &V> {
        self.iter().map(|(_, value)| value)
    }

    pub fn values_mut(&mut self) -> impl Iterator<Item = &mut V> {
        self.sort();
        self.items.iter_mut().map(|(_, value)| value)
    }

    pub fn into_values(self) -> impl Iterator<Item = V> {
        self.into_iter().map(|(_, value)| value)
    }

    /// Moves the items into the order of their keys.
    fn sort(&mut self) {
        let places = self.places.values().copied().listed();
        move_to_places(places, &mut |one, other| self.items.swap(one, other));
        for (place, of_key) in self.places.values_mut().enumerate() {
            *of_key = place;
        }
    }
}

impl<K: Numbered, V> NumberMap<K, V> {
    pub fn contains_key(&self, key: &K) -> bool {
        self.places.contains_key(&key.number())
    }

    pub fn get(&self, key: &K) -> Option<&V> {
        let place = self.places.get(&key.number())?;
        Some(&self.items[*place].1)
    }

    pub fn get_mut(&mut self, key: &K) -> Option<&mut V> {
        let place = self.places.get(&key.number())?;
        Some(&mut self.items[*place].1)
    }

    /// Inserts a value, and returns the one that the key had.
    pub fn insert(&mut self, key: K, value: V) -> Option<V> {
        let place = self.place(key);
        if let Some((_, before)) = self.items.get_mut(place) {
            return Some(mem::replace(before, value));
        }
        self.items.push((key, value));
        None
    }

    /// Inserts a value, in a map that may have many. Where there is no memory for one more, nothing
    /// has changed.
    pub fn try_insert(&mut self, key: K, value: V) -> Result<(), NoMemory> {
        self.items.try_reserve(1).map_err(|_| NoMemory)?;
        self.insert(key, value);
        Ok(())
    }

    /// Returns the value of a key, which gets this one if it has none.
    pub fn get_or_insert_with(&mut self, key: K, make: impl FnOnce() -> V) -> &mut V {
        let place = self.place(key);
        if place == self.items.len() {
            self.items.push((key, make()));
        }
        &mut self.items[place].1
    }

    /// As [`get_or_insert_with`](NumberMap::get_or_insert_with), with the default value.
    pub fn get_or_default(&mut self, key: K) -> &mut V
    where
        V: Default,
    {
        self.get_or_insert_with(key, V::default)
    }

    /// Returns the place of a key: that of a further item, if it has none yet.
    fn place(&mut self, key: K) -> usize {
        let next = self.items.len();
        *self.places.entry(key.number()).or_insert(next)
    }

    pub fn remove(&mut self, key: &K) -> Option<V> {
        let place = self.places.remove(&key.number())?;
        let (_, value) = self.items.swap_remove(place);
        if let Some((moved, _)) = self.items.get(place) {
            self.places.insert(moved.number(), place);
        }
        Some(value)
    }

    /// Removes the first key.
    pub fn remove_first(&mut self) {
        let first = self.keys().next().copied();
        if let Some(first) = first {
            self.remove(&first);
        }
    }

    /// Keeps these items. They are looked at in any order, so no memory is needed for one.
    pub fn retain(&mut self, mut is_kept: impl FnMut(&K, &mut V) -> bool) {
        let mut kept = 0;
        for place in 0..self.items.len() {
            let (key, value) = &mut self.items[place];
            if is_kept(key, value) {
                self.items.swap(kept, place);
                kept += 1;
            }
        }
        self.items.truncate(kept);
        let keys = self.items.iter().map(|(key, _)| key.number());
        self.places = BTreeMap::new();
        for (place, number) in keys.enumerate() {
            self.places.insert(number, place);
        }
    }

    /// The items whose keys are in this range.
    pub fn range(&self, keys: impl RangeBounds<K>) -> Items<'_, K, V> {
        let first = keys.start_bound().map(|key| key.number());
        let last = keys.end_bound().map(|key| key.number());
        Items {
            places: self.places.range((first, last)),
            items: &self.items,
        }
    }
}

impl<K, V> Default for NumberMap<K, V> {
    fn default() -> NumberMap<K, V> {
        NumberMap::new()
    }
}

impl<K: PartialEq, V: PartialEq> PartialEq for NumberMap<K, V> {
    fn eq(&self, other: &NumberMap<K, V>) -> bool {
        self.len() == other.len() && self.iter().eq(other.iter())
    }
}

impl<K: Eq, V: Eq> Eq for NumberMap<K, V> {}

impl<K: fmt::Debug, V: fmt::Debug> fmt::Debug for NumberMap<K, V> {
    fn fmt(&self, f: &mut fmt::Formatter<'_>) -> fmt::Result {
        f.debug_map().entries(self.iter()).finish()
    }
}

impl<K: Numbered, V> Extend<(K, V)> for NumberMap<K, V> {
    fn extend<I: IntoIterator<Item = (K, V)>>(&mut self, items: I) {
        for (key, value) in items {
            self.insert(key, value);
        }
    }
}

impl<K: Numbered, V> FromIterator<(K, V)> for NumberMap<K, V> {
    fn from_iter<I: IntoIterator<Item = (K, V)>>(items: I) -> NumberMap<K, V> {
        let mut map = NumberMap::new();
        map.extend(items);
        map
    }
}

impl<K: Numbered, V, const N: usize> From<[(K, V); N]> for NumberMap<K, V> {
    fn from(items: [(K, V); N]) -> NumberMap<K, V> {
        items.into_iter().collect()
    }
}

impl<K, V> IntoIterator for NumberMap<K, V> {
    type Item = (K, V);
    type IntoIter = vec::IntoIter<(K, V)>;

    fn into_iter(mut self) -> Self::IntoIter {
        self.sort();
        self.items.into_iter()
    }
}

impl<'a, K, V> IntoIterator for &'a NumberMap<K, V> {
    type Item = (&'a K, &'a V);
    type IntoIter = Items<'a, K, V>;

    fn into_iter(self) -> Self::IntoIter {
        self.iter()
    }
}

/// A set in the order of its keys.
#[derive(Clone, Debug, PartialEq, Eq)]
pub struct NumberSet<K>(NumberMap<K, ()>);

impl<K> NumberSet<K> {
    pub const fn new() -> NumberSet<K> {
        NumberSet(NumberMap::new())
    }

    pub fn len(&self) -> usize {
        self.0.len()
    }

    pub fn is_empty(&self) -> bool {
        self.0.is_empty()
    }

    pub fn iter(&self) -> impl Iterator<Item = &K> {
        self.0.keys()
    }
}

impl<K: Numbered> NumberSet<K> {
    /// Inserts a key, and returns whether the set didn't have it.
    pub fn insert(&mut self, key: K) -> bool {
        self.0.insert(key, ()).is_none()
    }

    pub fn contains(&self, key: &K) -> bool {
        self.0.contains_key(key)
    }

    pub fn remove(&mut self, key: &K) {
        self.0.remove(key);
    }
}

impl<K> Default for NumberSet<K> {
    fn default() -> NumberSet<K> {
        NumberSet::new()
    }
}

impl<K: Numbered> Extend<K> for NumberSet<K> {
    fn extend<I: IntoIterator<Item = K>>(&mut self, keys: I) {
        for key in keys {
            self.insert(key);
        }
    }
}

impl<K: Numbered> FromIterator<K> for NumberSet<K> {
    fn from_iter<I: IntoIterator<Item = K>>(keys: I) -> NumberSet<K> {
        let mut set = NumberSet::new();
        set.extend(keys);
        set
    }
}

impl<K: Numbered> IntoIterator for NumberSet<K> {
    type Item = K;
    type IntoIter = vec::IntoIter<K>;

    fn into_iter(self) -> Self::IntoIter {
        let keys: Vec<_> = self.iter().copied().listed();
        keys.into_iter()
    }
}

#[cfg(test)]
mod tests;
