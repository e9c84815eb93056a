//! What the sources use of the kit's port of `indexmap`, over `indexmap` itself: a map in the order
//! of insertion, with keys of bytes.

use super::alloc::{AllocFailed, Global};
use super::refused::without_refusals;
use super::vec::Vec;
use std::borrow::Borrow;
use std::hash::{BuildHasher, Hash, Hasher, RandomState};
use std::ops::Index;

/// Makes hashers of short keys, with a seed of Rust's that each map has for itself, so that nobody
/// can choose keys that have one hash. Rust's own hasher takes three times as long for them.
#[derive(Debug)]
pub struct Seed(u64);

/// A hash, to which a key's bytes are folded eight at a time.
#[derive(Debug)]
pub struct Folded {
    hash: u64,
    seed: u64,
}

impl Folded {
    fn fold(&mut self, word: u64) {
        let product = u128::from(self.hash ^ word) * u128::from(self.seed);
        self.hash = product as u64 ^ (product >> 64) as u64;
    }
}

impl BuildHasher for Seed {
    type Hasher = Folded;

    fn build_hasher(&self) -> Folded {
        let Seed(seed) = *self;
        Folded { hash: seed, seed }
    }
}

impl Hasher for Folded {
    fn write(&mut self, bytes: &[u8]) {
        for part in bytes.chunks(8) {
            let mut word = [0; 8];
            word[..part.len()].copy_from_slice(part);
            self.fold(u64::from_le_bytes(word));
        }
    }

    fn write_usize(&mut self, length: usize) {
        self.hash ^= (length as u64).rotate_left(32);
    }

    fn finish(&self) -> u64 {
        self.hash
    }
}

impl<T: Hash> Hash for Vec<T> {
    /// It is that of the items, by which a map finds a borrowed key.
    fn hash<H: Hasher>(&self, state: &mut H) {
        self.as_slice().hash(state);
    }
}

impl<T> Borrow<[T]> for Vec<T> {
    fn borrow(&self) -> &[T] {
        self
    }
}

/// A map whose entries are numbered 0, 1, 2, .. in the order in which their keys were inserted.
#[derive(Debug)]
pub struct IndexMap<K, V>(::indexmap::IndexMap<K, V, Seed>);

impl<K: Borrow<[u8]> + Hash + Eq, V> IndexMap<K, V> {
    /// The port's clause: `IsEmpty result`. It allocates nothing.
    pub fn new(_: Global) -> IndexMap<K, V> {
        let seed = Seed(RandomState::new().hash_one(0) | 1);
        IndexMap(::indexmap::IndexMap::with_hasher(seed))
    }

    /// The port's clause: `result ≡ index_of_by (Q.equivalent key) S`.
    pub fn get_index_of(&self, key: &[u8]) -> Option<usize> {
        self.0.get_index_of(key)
    }

    /// The port's clause: `result ≡ is_some (get_by (Q.equivalent key) S)`.
    pub fn contains_key(&self, key: &[u8]) -> bool {
        self.0.contains_key(key)
    }

    /// The port's clauses: `OnOk result (S'.entries ≡ insert_entry K.eq S.entries key value)`: a
    /// key that is there keeps its place and gets the value, and a new one is the last;
    /// `IfOk result (λ old. old ≡ get K.eq S key)`. The port returns the pair where memory is
    /// refused. Here that ends the process: `indexmap` 1.9.2 has no `try_reserve`.
    pub fn insert(&mut self, key: K, value: V) -> Result<Option<V>, AllocFailed<(K, V)>> {
        Ok(without_refusals(|| self.0.insert(key, value)))
    }
}

impl<K, V> Index<usize> for IndexMap<K, V> {
    type Output = V;

    /// The port's clauses: it requires `number < index_map_len S`, and the result is the value of
    /// that entry.
    fn index(&self, number: usize) -> &V {
        &self.0[number]
    }
}
