//! Maps and sets whose keys are texts. All of them have their order in a map of one type, which
//! rustc compiles once, as those by numbers do (`numbered.rs`).

use crate::listed::Keep;
use std::collections::{BTreeMap, btree_map};
use std::fmt;
use std::mem;
use std::sync::Arc;

/// A map in the order of its texts.
#[derive(Clone)]
pub struct TextMap<V> {
    // Where the item of each text is.
    places: BTreeMap<Arc<str>, usize>,
    items: Vec<(Arc<str>, V)>,
}

/// The items of a map in the order of texts.
pub struct TextItems<'a, V> {
    places: btree_map::Values<'a, Arc<str>, usize>,
    items: &'a [(Arc<str>, V)],
}

impl<'a, V> Iterator for TextItems<'a, V> {
    type Item = (&'a str, &'a V);

    fn next(&mut self) -> Option<Self::Item> {
        let (text, value) = &self.items[*self.places.next()?];
        Some((text, value))
    }
}

impl<V> TextMap<V> {
    pub const fn new() -> TextMap<V> {
        TextMap {
            places: const { BTreeMap::new() },
            items: const { Vec::new() },
        }
    }

    pub fn len(&self) -> usize {
        self.items.len()
    }

    pub fn is_empty(&self) -> bool {
        self.items.is_empty()
    }

    pub fn iter(&self) -> TextItems<'_, V> {
        TextItems {
            places: self.places.values(),
            items: &self.items,
        }
    }

    pub fn keys(&self) -> impl Iterator<Item = &str> {
        self.places.keys().map(|text| &**text)
    }

    pub fn contains_key(&self, text: &str) -> bool {
        self.places.contains_key(text)
    }

    pub fn get(&self, text: &str) -> Option<&V> {
        let place = self.places.get(text)?;
        Some(&self.items[*place].1)
    }

    pub fn get_mut(&mut self, text: &str) -> Option<&mut V> {
        let place = self.places.get(text)?;
        Some(&mut self.items[*place].1)
    }

    /// Inserts a value, and returns the one that the text had.
    pub fn insert(&mut self, text: &str, value: V) -> Option<V> {
        if let Some(before) = self.get_mut(text) {
            return Some(mem::replace(before, value));
        }
        self.add(text, value);
        None
    }

    /// Returns the value of a text, which gets this one if it has none.
    pub fn get_or_insert_with(&mut self, text: &str, make: impl FnOnce() -> V) -> &mut V {
        let place = match self.places.get(text) {
            Some(place) => *place,
            None => self.add(text, make()),
        };
        &mut self.items[place].1
    }

    /// As [`get_or_insert_with`](TextMap::get_or_insert_with), with the default value.
    pub fn get_or_default(&mut self, text: &str) -> &mut V
    where
        V: Default,
    {
        self.get_or_insert_with(text, V::default)
    }

    /// Adds a text that has no value, and returns its place.
    fn add(&mut self, text: &str, value: V) -> usize {
        let place = self.items.len();
        let text = inserted(&mut self.places, text, place);
        self.items.push((text, value));
        place
    }

    pub fn remove(&mut self, text: &str) -> Option<V> {
        let place = self.places.remove(text)?;
        let (_, value) = self.items.swap_remove(place);
        if let Some((moved, _)) = self.items.get(place) {
            self.places.insert(moved.clone(), place);
        }
        Some(value)
    }

    pub fn retain(&mut self, mut is_kept: impl FnMut(&str, &V) -> bool) {
        self.items.keep(|(text, value)| is_kept(text, value));
        self.places = BTreeMap::new();
        for (place, (text, _)) in self.items.iter().enumerate() {
            self.places.insert(text.clone(), place);
        }
    }

    /// Returns the items in no order.
    pub fn into_items(self) -> Vec<(Arc<str>, V)> {
        self.items
    }
}

/// Inserts the place of a text, for values of any type.
fn inserted(places: &mut BTreeMap<Arc<str>, usize>, text: &str, place: usize) -> Arc<str> {
    let text = Arc::<str>::from(text);
    places.insert(text.clone(), place);
    text
}

impl<V> Default for TextMap<V> {
    fn default() -> TextMap<V> {
        TextMap::new()
    }
}

#[cfg(test)]
impl<V, const N: usize> From<[(String, V); N]> for TextMap<V> {
    fn from(items: [(String, V); N]) -> TextMap<V> {
        let mut map = TextMap::new();
        for (text, value) in items {
            map.insert(&text, value);
        }
        map
    }
}

impl<V: PartialEq> PartialEq for TextMap<V> {
    fn eq(&self, other: &TextMap<V>) -> bool {
        self.len() == other.len() && self.iter().eq(other.iter())
    }
}

impl<V: Eq> Eq for TextMap<V> {}

impl<V: fmt::Debug> fmt::Debug for TextMap<V> {
    fn fmt(&self, f: &mut fmt::Formatter<'_>) -> fmt::Result {
        f.debug_map().entries(self.iter()).finish()
    }
}

/// A set in the order of its texts.
#[derive(Default)]
pub struct TextSet(TextMap<()>);

impl TextSet {
    pub const fn new() -> TextSet {
        TextSet(TextMap::new())
    }

    pub fn len(&self) -> usize {
        self.0.len()
    }

    pub fn is_empty(&self) -> bool {
        self.0.is_empty()
    }

    /// Inserts a text, and returns whether the set didn't have it.
    pub fn insert(&mut self, text: &str) -> bool {
        self.0.insert(text, ()).is_none()
    }

    pub fn extend<'a>(&mut self, texts: impl IntoIterator<Item = &'a String>) {
        for text in texts {
            self.insert(text);
        }
    }

    pub fn contains(&self, text: &str) -> bool {
        self.0.contains_key(text)
    }

    pub fn iter(&self) -> impl Iterator<Item = &str> {
        self.0.keys()
    }
}

#[cfg(test)]
mod tests {
    use super::*;

    #[test]
    fn a_map_is_as_that_of_std() {
        let (mut here, mut there) = (TextMap::new(), BTreeMap::new());
        for number in 0..300_u32 {
            let text = format!("text {}", number * 7919 % 60);
            if number % 3 == 2 {
                assert_eq!(here.remove(&text), there.remove(&text));
            } else {
                assert_eq!(
                    here.insert(&text, number),
                    there.insert(text.clone(), number)
                );
            }
            *here.get_or_default("counted") += 1;
            *there.entry("counted".to_string()).or_default() += 1;
            let all = there.iter().map(|(text, value)| (text.as_str(), value));
            assert!(here.iter().eq(all));
            assert_eq!(
                (here.get(&text), here.len()),
                (there.get(&text), there.len())
            );
        }
    }
}
