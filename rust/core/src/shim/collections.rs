//! `BTreeMap`.
//!
//! Rust's own says nothing where memory is refused, but ends the process. So `insert` never fails
//! here: what the proofs say of a failure holds of none.

use super::alloc::{AllocFailed, Global};
use std::collections::{BTreeMap as Map, btree_map};

/// Values by their keys, in the keys' order.
pub struct BTreeMap<K, V>(Map<K, V>);

impl<K: Ord, V> BTreeMap<K, V> {
    /// Rattle's clauses: `IsEmpty result`, `IsOrdered K.cmp result`. It allocates nothing.
    #[inline(always)]
    pub fn new(_: Global) -> BTreeMap<K, V> {
        BTreeMap(Map::new())
    }

    /// Rattle's clause: `result ≡ btree_map_len S`.
    #[inline(always)]
    pub fn len(&self) -> usize {
        self.0.len()
    }

    /// Rattle's clause: `option_copied result ≡ get K.cmp S key`.
    #[inline]
    pub fn get(&self, key: &K) -> Option<&V> {
        self.0.get(key)
    }

    /// Rattle's clauses: `option_copied_mut result ≡ get K.cmp S key`, and what is written to it is
    /// in `S'`.
    #[inline]
    pub fn get_mut(&mut self, key: &K) -> Option<&mut V> {
        self.0.get_mut(key)
    }

    /// Rattle's clauses: `S'.entries ≡ insert_entry K.cmp S.entries key value`,
    /// `IfOk result (λ old. old ≡ get K.cmp S key)`.
    #[inline]
    pub fn insert(&mut self, key: K, value: V) -> Result<Option<V>, AllocFailed<(K, V)>> {
        Ok(self.0.insert(key, value))
    }

    /// Rattle's clauses: `result ≡ get K.cmp S key`,
    /// `S'.entries ≡ remove_entry (is_at (K.cmp key)) S.entries`.
    #[inline]
    pub fn remove(&mut self, key: &K) -> Option<V> {
        self.0.remove(key)
    }

    /// Rattle's clause: the iterator yields `values S`, in this order.
    #[inline]
    pub fn into_values(self) -> btree_map::IntoValues<K, V> {
        self.0.into_values()
    }
}
