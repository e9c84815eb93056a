//! Sorting by one function for all types of items. rustc compiles a sort of std's again for each
//! type and each order.

use crate::listed::IntoList;
use std::cmp::Ordering;

/// Sorts a list by this order. Items that are equal in it stay in theirs.
pub fn sort_by<T>(items: &mut [T], order: impl Fn(&T, &T) -> Ordering) {
    let places = sorted_places(items.len(), &|one, other| order(&items[one], &items[other]));
    move_to_places(places, &mut |one, other| items.swap(one, other));
}

/// Sorts a list by the keys of its items. Items with equal keys stay in their order.
pub fn sort_by_key<T, K: Ord>(items: &mut [T], key: impl Fn(&T) -> K) {
    let order = |one: usize, other: usize| key(&items[one]).cmp(&key(&items[other]));
    let places = sorted_places(items.len(), &order);
    move_to_places(places, &mut |one, other| items.swap(one, other));
}

/// Returns the places of `count` items, in the order of these, or no places if the items already
/// are in it.
fn sorted_places(count: usize, order: &dyn Fn(usize, usize) -> Ordering) -> Vec<usize> {
    if (1..count).all(|place| order(place - 1, place).is_le()) {
        return Vec::new();
    }
    let mut places: Vec<_> = (0..count).listed();
    places.sort_by(|one, other| order(*one, *other));
    places
}

/// Has a list's items moved, so that the first one is that of the first of these places, and so on.
pub(super) fn move_to_places(mut places: Vec<usize>, swap: &mut dyn FnMut(usize, usize)) {
    for first in 0..places.len() {
        // The places of a cycle are passed once: each then has its own item.
        let mut at = first;
        while places[at] != first {
            let from = places[at];
            swap(at, from);
            places[at] = at;
            at = from;
        }
        places[at] = at;
    }
}

#[cfg(test)]
mod tests {
    use super::*;

    /// Numbers that look random, each below 40.
    fn numbers(count: usize) -> Vec<usize> {
        let mut last = count as u32;
        let mut next = || {
            last = last.wrapping_mul(1_103_515_245).wrapping_add(12345);
            (last >> 16) as usize % 40
        };
        (0..count).map(|_| next()).collect()
    }

    #[test]
    fn a_list_is_sorted_as_by_std() {
        for count in 0..200 {
            let given: Vec<_> = numbers(count).into_iter().zip(0..).collect();
            let (mut here, mut there) = (given.clone(), given);
            sort_by_key(&mut here, |(number, _)| *number);
            there.sort_by_key(|(number, _)| *number);
            assert_eq!(here, there);
        }
    }

    #[test]
    fn an_order_may_be_the_opposite_one() {
        let mut all = numbers(100);
        sort_by(&mut all, |one, other| other.cmp(one));
        assert!(all.is_sorted_by(|one, other| one >= other));
    }
}
