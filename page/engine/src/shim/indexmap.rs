//! A stand-in for the kit's port of `indexmap`, as much of it as the sources use: a map in the order of insertion, with keys of bytes.

use super::alloc::{AllocFailed, Global};
use super::vec::Vec;
use std::borrow::Borrow;
use std::collections::HashMap;
use std::hash::{Hash, Hasher};
use std::mem;
use std::ops::{Deref, Index};

/// A key, which is found by its bytes.
#[derive(Debug)]
struct Key<K>(K);

impl<K: Deref<Target = [u8]>> Hash for Key<K> {
    fn hash<H: Hasher>(&self, state: &mut H) {
        self.0.hash(state);
    }
}

impl<K: Deref<Target = [u8]>> PartialEq for Key<K> {
    fn eq(&self, other: &Self) -> bool {
        *self.0 == *other.0
    }
}

impl<K: Deref<Target = [u8]>> Eq for Key<K> {}

impl<K: Deref<Target = [u8]>> Borrow<[u8]> for Key<K> {
    fn borrow(&self) -> &[u8] {
        &self.0
    }
}

/// A map whose entries are numbered 0, 1, 2, .. in the order in which their keys were inserted.
#[derive(Debug)]
pub struct IndexMap<K, V> {
    /// The number of each key, which is the place of its value.
    numbers: HashMap<Key<K>, usize>,
    values: Vec<V>,
}

impl<K: Deref<Target = [u8]>, V> IndexMap<K, V> {
    /// The port's clause: `IsEmpty result`. It allocates nothing.
    pub fn new(alloc: Global) -> IndexMap<K, V> {
        IndexMap {
            numbers: HashMap::new(),
            values: Vec::new(alloc),
        }
    }

    /// The port's clause: `result ≡ index_of_by (Q.equivalent key) S`.
    pub fn get_index_of(&self, key: &[u8]) -> Option<usize> {
        self.numbers.get(key).copied()
    }

    /// The port's clause: `result ≡ is_some (get_by (Q.equivalent key) S)`.
    pub fn contains_key(&self, key: &[u8]) -> bool {
        self.numbers.contains_key(key)
    }

    /// The port's clauses: `OnOk result (S'.entries ≡ insert_entry K.eq S.entries key value)`: a
    /// key that is there keeps its place and gets the value, and a new one is the last;
    /// `IfOk result (λ old. old ≡ get K.eq S key)`. Only a new key can fail, and then the map stays
    /// and the pair comes back: `IfErr result (λ y. y.value ≡ (key, value))`.
    pub fn insert(&mut self, key: K, value: V) -> Result<Option<V>, AllocFailed<(K, V)>> {
        let value = match self.get_index_of(&key) {
            Some(number) => return Ok(Some(mem::replace(&mut self.values[number], value))),
            None => value,
        };
        if self.values.reserve(1).is_err() || self.numbers.try_reserve(1).is_err() {
            let value = (key, value);
            return Err(AllocFailed { value });
        }
        self.numbers.insert(Key(key), self.values.len());
        self.values.push_reserved(value);
        Ok(None)
    }
}

impl<K, V> Index<usize> for IndexMap<K, V> {
    type Output = V;

    /// The port's clauses: it requires `number < index_map_len S`, and the result is the value of
    /// that entry.
    fn index(&self, number: usize) -> &V {
        &self.values[number]
    }
}
